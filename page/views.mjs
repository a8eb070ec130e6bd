// The tabs that show what the program says of a volume: check, i-node, volume, find.
import { button, chooseFiles, clear, counted, doing, el, fill, link, longTable, modeText, moment, save, table } from './dom.mjs';
import { exportRescued, repair } from './edit.mjs';
import { ask } from './engine.mjs';
import { INODE_BYTES, inodeAt, readInode } from './layout.mjs';
import { addFile, at, go, removeFile, run, state } from './shelf.mjs';
import { plainPath, readTree, reveal } from './tree.mjs';

const PLACES = /(i-nodes?|blocks?|directory) (\d+)/g;

/** Turns the i-nodes, blocks and directories that a line names into links. */
export function linked(line) {
  const made = [];
  let from = 0;
  for (const it of line.matchAll(PLACES)) {
    const [text, kind, number] = it;
    made.push(line.slice(from, it.index), place(text, kind, Number(number)));
    from = it.index + text.length;
  }
  return [...made, line.slice(from)];
}

const place = (text, kind, number) => (kind.startsWith('block') ? link(text, () => go('bytes', { block: number }))
  : link(text, () => go('inode', { inode: number })));

/** Shows lines of text, with links in them. */
export const lines = (text, props = {}) => el('pre', props, text.split('\n').flatMap((it, k) => [k ? '\n' : '', ...linked(it)]));

const SAID = 1 << 18; // characters of a report that are shown
const CUT = '.. and more, which a command line shows';

/** Shows what a command printed: its output, then its errors. */
export const printed = ({ text, error, cut }) => el('div', {}, text ? lines(text) : null, cut ? el('p', { className: 'dim' }, CUT) : null,
  error ? el('pre', { className: 'bad' }, error) : null);

/** Returns what uses a block. Of a hostile image that may be more than is shown. */
export async function usesOf(block) {
  const { text, error, cut } = await run(['block', ...at(), block], { limit: SAID });
  return cut ? `${text.slice(0, text.lastIndexOf('\n', SAID))}\n${CUT}` : (text || error).trim();
}

const MARKS = new Map([[true, ['✓', 'holds', 'good']], [false, ['✗', 'broken', 'bad']], [null, ['–', 'not checked', 'dim']]]);

/** The twelve rules, as `check` prints them; each finding leads to what it names. */
export function rulesTable(image) {
  const rows = image.rules.map((it) => {
    const [mark, word, look] = MARKS.get(it.holds);
    return [String(it.rule), it.requires, el('span', { className: look }, el('span', { 'aria-hidden': 'true' }, `${mark} `), it.holds === false
      ? linked(it.says) : it.says, it.holds === false ? '' : el('span', { className: 'unseen' }, ` (${word})`))];
  });
  return table('The twelve rules of a sound volume', ['Rule', 'Requires', 'Result'], rows, { id: 'rules' });
}

export async function showCheck(panel) {
  const { image } = state;
  const verdict = image.isSound ? 'This volume is sound: all twelve rules hold.'
    : `This volume breaks ${counted(image.broken.length, 'rule')}: ${image.broken.map((it) => it.rule).join(', ')}.`;
  const note = image.check.split('\n').filter((it) => it.startsWith('note:')).join(' ');
  const report = el('div', { 'aria-live': 'polite' });
  const asks = async (command) => report.replaceChildren(el('h3', {}, command), printed(await run([command, ...at(), 1], { limit: SAID })));
  fill(panel, el('h2', {}, 'Check'), image.rules.length ? el('p', { className: image.isSound ? 'good' : 'bad', id: 'verdict' }, verdict) : null, note
    ? el('p', {}, note) : null,
    image.rules.length ? rulesTable(image) : el('pre', { className: 'bad' }, image.check),
    image.isVolume ? rescues(image, report) : null, image.isReadable && !image.isSound ? repairs(report) : null, el('p', {}, 'The old checkers: ', ['icheck', 'dcheck', 'ncheck'].flatMap((it) => [button(it, () => asks(it)), ' '])), report);
}

/** The buttons that export the files of an image of which blocks are lost: it was cut off, or the user has a map of what could be read. */
function rescues(image, report) {
  const says = (said) => report.replaceChildren(said ? el('pre', { id: 'lost' }, said.slice(0, SAID), said.length > SAID
    ? `.. and ${said.length - SAID} characters more` : '') : '');
  const exports = (work) => ['Export as tar: ', button('files that are whole', async () => says(await work(false)), { id: 'whole' }), ' ',
    button('damaged files too, with zeros for what is lost', async () => says(await work(true)), { id: 'damaged' })];
  const row = el('p', { className: 'row' });
  const takesMap = async () => {
    const [file] = await chooseFiles(false);
    if (file) fill(clear(row), `Blocks that ${file.name} calls unread are lost. `, exports((isWithDamaged) => exportMapped(file, isWithDamaged)));
  };
  return fill(row, image.isCut ? ['The image is cut off. ', ...exports((isWithDamaged) => exportRescued(['--cut'], isWithDamaged)), ' ']
    : 'Was the disk read by ddrescue? ', button('Export by its map…', takesMap, { id: 'map-file' }));
}

/** Exports by a map of GNU ddrescue, which is a file beside the image meanwhile. */
async function exportMapped(file, isWithDamaged) {
  const map = await addFile(file.name, file);
  try {
    return await exportRescued(['--bad', map], isWithDamaged);
  } finally {
    await removeFile(map);
  }
}

/** The buttons that show what a repair changes, and that make a repaired copy. */
function repairs(report) {
  const shows = async () => report.replaceChildren(el('h3', {}, 'What a repair changes'), printed(await run(['repair', ...at(), '-n'], { limit: SAID })));
  return el('p', { className: 'row' }, button('What a repair changes', shows, { id: 'repairs' }), button('Make a repaired copy…', repair, { id: 'repair' }));
}

/** A field for a number, with buttons for the one before and the next. */
export function chooser(label, value, least, most, choose) {
  const input = el('input', { type: 'number', value, min: least, max: most, id: 'number' });
  const takes = (number) => {
    input.value = Math.min(most, Math.max(least, number || least));
    return choose(Number(input.value));
  };
  input.addEventListener('change', doing(() => takes(Number(input.value))));
  return el('p', { className: 'row' }, el('label', { htmlFor: 'number' }, label),
    button('◂', () => takes(Number(input.value) - 1), { 'aria-label': 'the one before' }), input,
    button('▸', () => takes(Number(input.value) + 1), { 'aria-label': 'the next one' }));
}

const NAMES = 100; // names of an i-node that are shown
const READ = 1 << 24; // characters of an i-node's blocks that are read

/** Returns an i-node as `inode --json` prints it, or null with what it says. Of a hostile one, which may have far more blocks than the image, the first
  blocks are read, and `isCut` is true. */
export async function inodeOf(image, number) {
  const ended = await run(['inode', '--json', ...at(image), number], { limit: READ });
  if (!ended.text) return { ended, it: null };
  if (!ended.cut) return { ended, it: JSON.parse(ended.text) };
  const front = JSON.parse(`${ended.text.slice(0, ended.text.lastIndexOf('},') + 1)}]}`);
  const { bytes } = await ask('slice', { name: image.name, at: 1024, length: INODE_BYTES[image.edition] * number });
  const { modified, mode, permissions, ...rest } = readInode(image.edition, bytes, number);
  return { ended, it: { ...front, ...rest, mtime: modified, mode: `0${mode.toString(8)}`, permissions: permissions.toString(8), isCut: true } };
}

const time = (seconds) => (seconds === null ? 'none' : `${seconds}: ${moment(seconds)} UTC`);

/** The fields of an i-node, with links to its bytes and to the files that have it. */
function fields(it, names) {
  const from = inodeAt(state.image.edition, state.inode);
  const block = Math.floor(from / 512);
  return table('Fields', [], [
    ['mode', `${it.mode}: ${it.kind}, ${modeText(it.kind, parseInt(it.permissions, 8))}`],
    ['links', String(it.links)],
    ['user', String(it.uid)],
    ['group', String(it.gid)],
    ['size', it.size === undefined ? '' : counted(it.size, 'byte')],
    ['addr', el('span', { className: 'code' }, it.addr.join(' '))],
    ['accessed', time(it.atime)],
    ['modified', time(it.mtime)],
    ['changed', time(it.ctime)],
    ['its bytes', link(`bytes ${from} on, block ${block}`, () => go('bytes', { block, byte: from }))],
    ['names', el('span', {}, names.slice(0, NAMES).flatMap((node) => [link(node.path, () => shows(node.path)), ' ']), names.length ? '' : 'none',
      names.length > NAMES ? `and ${counted(names.length - NAMES, 'more name', 'more names')}` : '')],
  ]);
}

/** Selects a path, and shows the file. */
async function shows(path) {
  await reveal(path);
  await go('file');
}

export async function showInode(panel) {
  const most = state.image.use?.inodes ?? 65535;
  panel.append(el('h2', {}, 'I-node'), chooser('I-node', state.inode, 1, most, (inode) => go('inode', { inode })));
  const { ended, it } = await inodeOf(state.image, state.inode);
  if (!it) return panel.append(printed(ended));
  const names = [...(await readTree(state.image)).all.values()].filter((node) => node.inode === state.inode);
  panel.append(fields(it, names), longTable('Its blocks', ['Blocks', 'Hold'], it.extents, extent));
  if (it.isCut) panel.append(el('p', {}, `It names more than these ${counted(it.extents.length, 'piece')}, which is all that this page reads.`));
  panel.append(el('p', {}, button('Mark them on the map', () => go('map'))));
}

function extent({ block, count, inside, level, logical }) {
  const last = block + count - 1;
  const holds = level ? `pointers, level ${level}, from logical ${logical}` : `logical ${logical}${count > 1 ? `-${logical + count - 1}` : ''}`;
  return [link(count > 1 ? `${block}-${last}` : String(block), () => go('bytes', { block })), inside ? holds : `${holds}; this is no data block`];
}

const LINKS = 12; // links of the free list that are shown at once
const SHOWN = 2000; // paths that find shows

const SUPER = ['isize', 'fsize', 'nfree', 'ninode', 'flock', 'ilock', 'fmod', 'ronly', 'time'];

/** The super-block, what is used, and the free list link by link. */
export async function showVolume(panel) {
  panel.append(el('h2', {}, 'Volume'));
  const ended = await run(['super', '--json', ...at()]);
  if (!ended.text) return panel.append(printed(ended));
  const it = JSON.parse(ended.text);
  const { use } = state.image;
  const uses = [['blocks', 'blocks', 'free_blocks'], ['data blocks', 'data_blocks', 'free_blocks'], ['i-nodes', 'inodes', 'free_inodes']];
  const rows = uses.map(([name, all, free]) => [name, ...[use[all], use[`used_${all}`], use[free]].map((one) => one.toLocaleString('en'))]);
  const inodes = it.cache.flatMap((one) => [link(String(one), () => go('inode', { inode: one })), ' ']);
  panel.append(
    table('How full it is', ['', 'All', 'Used', 'Free'], rows),
    table('The super-block', [], SUPER.map((name) => [name, name === 'time' ? time(it.time) : String(it[name])])),
    el('p', {}, link('its bytes', () => go('bytes', { block: 1, byte: 512 }))),
    el('details', {}, el('summary', {}, `i-numbers kept as free: ${it.cache.length}`), el('p', { className: 'code' }, inodes)),
    await freeList(),
  );
}

async function freeList() {
  const ended = await run(['free', '--json', ...at()]);
  if (!ended.text) return printed(ended);
  const it = JSON.parse(ended.text);
  const box = el('section', {}, el('h3', {}, 'The free list, link by link'));
  if (it.free_fault) box.append(el('p', { className: 'bad' }, `It ends at a fault: ${it.free_fault.fault}, number ${it.free_fault.number}.`));
  const more = (from) => {
    box.append(...it.chain.slice(from, from + LINKS).map(freeLink));
    if (it.chain.length > from + LINKS) box.append(button(`Show more of ${it.chain.length} links`, (event) => (event.target.remove(), more(from + LINKS))));
  };
  more(0);
  return box;
}

/** A link of the free list: its block, and the numbers in it. The first leads to the next link. */
function freeLink({ block, free, nfree }) {
  const [next, ...others] = free.map(numberLink);
  const place = block === 1 ? 'super-block' : link(`block ${block}`, () => go('bytes', { block }));
  const numbers = el('span', { className: 'code' }, el('span', { title: 'the next link of the chain' }, '→ ', next ?? ''), others.flatMap((it) => [' ', it]));
  return el('div', { className: 'free' }, el('b', {}, place), ` nfree ${nfree}: `, numbers);
}

const numberLink = (one) => (one === 0 ? '0' : link(String(one), () => go('bytes', { block: one })));

/** Find by pattern, and the manifest. */
export async function showFind(panel) {
  const found = el('div', { 'aria-live': 'polite' });
  const input = el('input', { id: 'pattern', value: state.pattern ?? '*', spellcheck: false, autocomplete: 'off' });
  const find = async () => {
    state.pattern = input.value;
    const ended = await run(['find', ...at(), '--name', input.value], { limit: 1 << 22 });
    const paths = (ended.text ?? '').split('\n').filter(Boolean);
    const list = paths.slice(0, SHOWN).map((path) => el('li', {}, link(path, () => shows(escaped(path)))));
    fill(clear(found), el('p', {}, ended.cut ? 'More than ' : '', counted(paths.length, 'path'), paths.length > SHOWN ? `, of which the first ${SHOWN} are shown` : ''),
      el('ul', { className: 'code', id: 'found' }, list), ended.error ? el('pre', { className: 'bad' }, ended.error) : '');
  };
  const sums = async () => {
    const name = `${state.image.name}.sums`;
    const ended = await run(['sums', ...at()], { into: name });
    found.replaceChildren(el('p', {}, button('Download the manifest', () => save(name, new Blob([ended.output])))),
      printed({ ...ended, text: ended.text.slice(0, SAID), cut: ended.text.length > SAID }));
  };
  panel.append(el('h2', {}, 'Find'), el('form', { className: 'row', onsubmit: doing(find) }, el('label', { htmlFor: 'pattern' }, 'Names like'), input,
    el('button', { type: 'submit' }, 'Find'),
    button('SHA-256 of every file', sums, { id: 'sums' })), el('p', { className: 'dim' }, 'A * stands for any bytes or none, a ? for one byte.'), found);
}

/** The path in the form that `--json` has, which the tree is kept by. */
function escaped(path) {
  const { all } = state.image.tree;
  if (all.has(path)) return path;
  return [...all.keys()].find((it) => plainPath(it) === path) ?? '/';
}
