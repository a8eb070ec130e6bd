// The tab with the bytes of a block, in hexadecimal: a byte can be changed, and the rules that this breaks are said at once.
import { button, doing, el, fill } from './dom.mjs';
import { hex } from './dumps.mjs';
import { ask } from './engine.mjs';
import { byteOf } from './layout.mjs';
import { go, poke, state, undo } from './shelf.mjs';
import { chooser, lines, rulesTable, usesOf } from './views.mjs';

const octal = (byte) => byte.toString(8).padStart(3, '0');

export async function showBytesOfBlock(panel) {
  const { image } = state;
  const most = Math.max(0, Math.ceil(image.size / 512) - 1);
  const block = Math.max(0, Math.min(state.block, most));
  const { bytes } = await ask('slice', { name: image.name, at: 512 * block, length: 512 });
  const use = image.isReadable ? await usesOf(block) : '';
  const chosen = el('div', { id: 'byte', 'aria-live': 'polite' });
  const grid = el('table', { className: 'code hex', role: 'grid', 'aria-label': `bytes of block ${block}` });
  const view = { image, block, bytes, use, chosen, grid };
  grid.append(...Array.from({ length: Math.ceil(bytes.length / 16) }, (_, row) => gridRow(view, row)));
  grid.addEventListener('keydown', (event) => gridKeys(view, event));
  fill(panel, el('h2', {}, 'Bytes'), chooser('Block', block, 0, most, (it) => go('bytes', { block: it, byte: null })), use ? lines(use, { id: 'use' }) : '',
    chosen, el('div', { id: 'broke', 'aria-live': 'assertive' }, state.broke ?? ''), el('div', { className: 'wide' }, grid));
  const first = state.byte >= 512 * block && state.byte < 512 * (block + 1) ? state.byte - 512 * block : 0;
  if (bytes.length) choose(view, first, false);
}

function gridRow(view, row) {
  const part = view.bytes.subarray(16 * row, 16 * row + 16);
  const cells = [...part].map((byte, k) => el('td', { role: 'gridcell', tabIndex: -1, 'data-at': 16 * row + k, onclick: () => choose(view, 16 * row + k) },
    hex(byte)));
  return el('tr', { role: 'row' }, el('th', { scope: 'row' }, String(512 * view.block + 16 * row)), cells,
    el('td', { className: 'chars', 'aria-hidden': 'true' }, [...part].map((it) => (it >= 32 && it < 127 ? String.fromCharCode(it) : '.')).join('')));
}

const cellAt = (view, k) => view.grid.querySelector(`[data-at="${k}"]`);

/** Selects a byte: says what it is, and offers to change it. */
function choose(view, k, isFocused = true) {
  for (const old of view.grid.querySelectorAll('[tabindex="0"]')) {
    old.tabIndex = -1;
    old.removeAttribute('aria-selected');
  }
  const cell = cellAt(view, k);
  cell.tabIndex = 0;
  cell.setAttribute('aria-selected', 'true');
  if (isFocused) cell.focus();
  const where = 512 * view.block + k;
  state.byte = where;
  const input = el('input', { id: 'new-byte', value: hex(view.bytes[k]), size: 4, maxLength: 4, autocomplete: 'off', 'aria-describedby': 'byte-is' });
  const form = el('form', { className: 'row', onsubmit: doing(() => change(view, where, input.value)) },
    el('label', { htmlFor: 'new-byte' }, 'Hexadecimal'), input, el('button', { type: 'submit', id: 'set-byte' }, 'Change it'),
      button('Undo', () => undo(view.image), { disabled: !view.image.done.length }));
  view.chosen.replaceChildren(el('p', { id: 'byte-is' }, el('b', {}, `Byte ${where}`), ` is ${hex(view.bytes[k])}, octal ${octal(view.bytes[k])}: `,
    byteOf(view.image.edition, where, view.use)), form);
}

function gridKeys(view, event) {
  const here = Number(document.activeElement.dataset.at);
  const steps = { ArrowRight: 1, ArrowLeft: -1, ArrowDown: 16, ArrowUp: -16, PageDown: 128, PageUp: -128, Home: -(here % 16), End: 15 - (here % 16) };
  if (Number.isNaN(here)) return;
  if (event.key in steps) choose(view, Math.max(0, Math.min(view.bytes.length - 1, here + steps[event.key])));
  else if (event.key === 'Enter') view.chosen.querySelector('input').select();
  else return;
  event.preventDefault();
}

/** Changes a byte, and says which rules that breaks or mends. */
async function change(view, where, text) {
  const value = parseInt(text, 16);
  if (!/^[0-9a-f]{1,2}$/i.test(text.trim())) return;
  const { image } = view;
  const before = image.rules.map((it) => it.holds);
  state.broke = '';
  await poke(image, where, Uint8Array.of(value), `printf '\\${octal(value)}' | dd of=${image.name} bs=1 seek=${where} conv=notrunc`);
  const broke = image.rules.filter((it, k) => it.holds === false && before[k] !== false);
  const mended = image.rules.filter((it, k) => it.holds && before[k] === false);
  const said = [...broke.map((it) => el('p', { className: 'bad' }, `✗ Rule ${it.rule} breaks: ${it.requires}: ${it.says}`)),
    ...mended.map((it) => el('p', { className: 'good' }, `✓ Rule ${it.rule} holds again: ${it.requires}`))];
  state.broke = el('div', {}, said.length ? said : el('p', {}, image.isSound ? 'All twelve rules still hold.' : 'No rule changes.'), image.isSound ? ''
    : rulesTable(image));
  await go('bytes', { byte: where });
  state.broke = null;
}
