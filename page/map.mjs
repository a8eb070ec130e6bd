// The map: the squares that `map --svg` draws, in as many columns as fit, one path for all squares of a use. A block's square says what uses it.
import { button, does, el } from './dom.mjs';
import { at, go, run, state } from './shelf.mjs';
import { chooser, inodeOf, lines, usesOf } from './views.mjs';

const SVG = 'http://www.w3.org/2000/svg';
const SIDE = 12;
const SQUARES = 128 * 128; // the most that `map --svg` draws, beyond which a square is for several blocks
const USES = { B: 'boot block', S: 'super-block', i: 'i-list', d: 'directory', f: 'file', p: 'indirect block', o: 'free', c: 'free, continues the free list',
  L: 'lost', T: 'named twice', x: 'some lost or named twice' };
const SQUARE = `h${SIDE - 1}v${SIDE - 1}h${1 - SIDE}z`;
const LETTERED = 4096; // squares with letters in them, at most; more have marks, one path for all of a use
const FEW = 1024; // squares that are larger
const MARKS = { B: 'M3 3h5v5h-5z', S: 'M3 3h5v5h-5z', i: 'M0 5h11v1h-11z', d: 'M4 1h3v9h-3z', p: 'M1 4h9v3h-9z', c: 'M0 0h6l-6 6z', L: 'M0 9l9 -9h2v2l-9 9h-2z',
  T: 'M0 9l9 -9h2v2l-9 9h-2zM0 0h2l9 9v2h-2l-9 -9z', x: 'M4 1h3v6h-3zM4 8h3v2h-3z' };

const shape = (name, props) => {
  const made = document.createElementNS(SVG, name);
  for (const [key, value] of Object.entries(props)) made.setAttribute(key, value);
  return made;
};

const letterAt = (letter, x, y) => Object.assign(shape('text', { class: `l-${letter}`, x: x + (SIDE - 1) / 2, y: y + 8.5 }), { textContent: letter });

/** A path with the mark of each use in all of its squares, so that they are told apart without their colours too. */
function marks(squares, place) {
  return Object.entries(MARKS).map(([use, mark]) => {
    const at = (x, y) => mark.replace(/M(\d+) (\d+)/g, (_, right, down) => `M${x + Number(right)} ${y + Number(down)}`);
    return shape('path', { class: `mark l-${use}`, d: squares.map((it, k) => (it === use ? at(...place(k)) : '')).join('') });
  });
}

/** Reads the letters of the squares out of the picture; the legend's squares follow a wider step down, so they are cut off. */
function letters(svg, blocks) {
  const each = Math.max(1, Math.ceil(blocks / SQUARES));
  const all = [...svg.matchAll(/<path class='(.)'/g)].map((it) => it[1]);
  return { each, squares: all.slice(0, Math.ceil(blocks / each)) };
}

/** Returns the blocks of the selected i-node, as ranges. */
async function marked() {
  if (!state.inode) return [];
  const { it } = await inodeOf(state.image, state.inode);
  return it ? it.extents.filter((one) => one.inside) : [];
}

function draw(squares, columns, each, ranges) {
  const rows = Math.ceil(squares.length / columns);
  const svg = shape('svg', { viewBox: `0 0 ${columns * SIDE} ${rows * SIDE}`, class: 'map', tabindex: 0, role: 'group',
    'aria-label': `map of ${squares.length} squares; arrow keys move, Enter shows what uses the block` });
  const place = (k) => [(k % columns) * SIDE, Math.floor(k / columns) * SIDE];
  for (const use of Object.keys(USES)) {
    const d = squares.map((it, k) => (it === use ? `M${place(k).join(' ')}${SQUARE}` : '')).join('');
    if (d) svg.append(shape('path', { class: `u-${use}`, d }));
  }
  if (squares.length > LETTERED) svg.append(...marks(squares, place));
  else squares.forEach((it, k) => it !== 'o' && svg.append(letterAt(it, ...place(k))));
  const outlined = new Set();
  for (const { block, count } of ranges) for (let k = Math.floor(block / each); k <= Math.floor((block + count - 1) / each); k++) outlined.add(k);
  if (outlined.size) svg.append(shape('path', { class: 'marked', d: [...outlined].map((k) => `M${place(k).join(' ')}${SQUARE}`).join('') }));
  return svg;
}

/** Makes the squares answer to clicks and arrow keys. Returns what moves the cursor to a square. */
function answers(svg, { squares, columns, each, tells, uses }) {
  const cursor = shape('rect', { class: 'cursor', width: SIDE - 1, height: SIDE - 1 });
  let at = Math.min(squares.length - 1, Math.floor(state.block / each));
  const moves = (k) => {
    at = Math.max(0, Math.min(squares.length - 1, k));
    cursor.setAttribute('x', (at % columns) * SIDE);
    cursor.setAttribute('y', Math.floor(at / columns) * SIDE);
    const first = at * each;
    tells(`${each > 1 ? `blocks ${first} to ${first + each - 1}` : `block ${first}`}: ${USES[squares[at]]}`);
  };
  const steps = { ArrowRight: 1, ArrowLeft: -1, ArrowDown: columns, ArrowUp: -columns, Home: -Infinity, End: Infinity };
  svg.addEventListener('click', (event) => {
    const box = svg.getBoundingClientRect();
    const step = box.width / columns;
    moves(Math.floor((event.clientY - box.top) / step) * columns + Math.floor((event.clientX - box.left) / step));
    does(() => uses(at * each));
  });
  svg.addEventListener('keydown', (event) => {
    if (event.key in steps) moves(at + steps[event.key]);
    else if (event.key === 'Enter') does(() => uses(at * each));
    else return;
    event.preventDefault();
  });
  svg.append(cursor);
  moves(at);
  return moves;
}

/** The uses that the map shows, each with its square. */
function legend(squares) {
  const shown = Object.entries(USES).filter(([letter]) => squares.includes(letter));
  const hasMarks = squares.length > LETTERED;
  const items = shown.map(([letter, use]) => {
    const svg = shape('svg', { viewBox: `0 0 ${SIDE} ${SIDE}`, class: 'swatch', 'aria-hidden': 'true' });
    svg.append(shape('path', { class: `u-${letter}`, d: `M0 0${SQUARE}` }), ...(hasMarks ? marks([letter], () => [0, 0]) : [letterAt(letter, 0, 0)]));
    return el('li', {}, svg, use);
  });
  return el('ul', { className: 'legend' }, items);
}

/** What the map shows, in words. */
function heading(each, ranges) {
  const { image, inode, entry } = state;
  const blocks = `${image.use.blocks.toLocaleString('en')} blocks${each > 1 ? `, ${each} in each square` : ''}.`;
  const of = ranges.length ? ` Outlined: the blocks of i-node ${inode}${entry?.inode === inode ? `, ${entry.path}` : ''}.` : '';
  return `${blocks} Choose a square to see what uses the block.${of}`;
}

export async function showMap(panel) {
  const { image } = state;
  panel.append(el('h2', {}, 'Map'));
  const ended = await run(['map', '--svg', ...at()]);
  if (ended.status) return panel.append(el('pre', { className: 'bad' }, ended.error));
  const { each, squares } = letters(ended.text, image.use.blocks);
  const side = squares.length > LETTERED ? 9 : squares.length > FEW ? 14 : 20;
  const columns = Math.max(16, Math.min(128, Math.floor((panel.clientWidth || 600) / side)));
  const told = el('p', { role: 'status', id: 'block-said' });
  const use = el('div', { id: 'block-use', 'aria-live': 'polite' });
  const uses = async (block) => {
    state.block = block;
    use.replaceChildren(lines(await usesOf(block)), button('Show its bytes', () => go('bytes', { block })));
  };
  const ranges = await marked();
  const svg = draw(squares, columns, each, ranges);
  const moves = answers(svg, { squares, columns, each, tells: (it) => (told.textContent = it), uses });
  panel.append(el('p', {}, heading(each, ranges)), legend(squares), told, use, svg);
  panel.append(chooser('Block', state.block, 0, image.use.blocks - 1, (block) => (moves(Math.floor(block / each)), uses(block))));
}
