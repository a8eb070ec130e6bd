// The tabs that are about all images, what changed one, and the command line.
import { $, Stopped, button, counted, doing, el, fill, link, save, say, table } from './dom.mjs';
import { importArchive, insides, saveInPack } from './edit.mjs';
import { log } from './engine.mjs';
import { choose, go, removeFile, runBetween, state, tell, undo, wholeImage } from './shelf.mjs';
import { runLine } from './shell.mjs';
import { chooser, lines, printed } from './views.mjs';

/** What an image is, in a few words. */
export function verdict(image) {
  if (image.isSound) return 'sound';
  const [first] = image.broken;
  const broken = first ? `breaks rule ${first.rule}: ${first.requires}: ${first.says}` : 'was not checked';
  return image.isVolume ? broken : `${image.said}; as edition ${image.edition} it ${broken}`;
}

const column = (image) => {
  const { blocks = '', free_blocks: free = '' } = image.use ?? {};
  return [image.name, image.isVolume ? image.edition : '', verdict(image), blocks, free, image.size];
};
const HEADS = ['Image', 'Edition', 'State', 'Blocks', 'Free', 'Bytes'];
const quoted = (cell) => (/[",\n]/.test(String(cell)) ? `"${String(cell).replaceAll('"', '""')}"` : String(cell));

/** The table of all images, as comma-separated values. */
export const csv = (images) => [HEADS, ...images.map(column)].map((row) => row.map(quoted).join(',')).join('\r\n').concat('\r\n');

/** What can be done with an image, beside looking at it. */
function offers(image) {
  const made = insides(image).map((it) => button(it.label, it.open));
  const pack = image.within?.pack;
  if (pack && state.images.includes(pack)) made.push(button(`Download ${pack.name} with it`, () => saveInPack(image)));
  const into = state.images.find((it) => it !== image && it.isSound);
  if (image.said.includes('archive of tar') && into) made.push(button(`Import its files into ${into.name}`, () => importsInto(into, image)));
  return [...made, button('Close', () => removeFile(image.name), { 'aria-label': `close ${image.name}` })];
}

async function importsInto(into, archive) {
  await choose(into);
  await importArchive(await wholeImage(archive), archive.name, { word: '/', path: '/' });
}

function imageRow(image) {
  const [name, edition, what, ...numbers] = column(image);
  const shows = async () => {
    await choose(image);
    await go('check');
  };
  return [
    link(name, shows, { 'aria-current': image === state.image ? 'true' : null }), edition, el('span', { className: image.isSound ? 'good' : 'bad' }, what),
    ...numbers.map((it) => it.toLocaleString('en')), el('span', { className: 'row' }, offers(image)),
  ];
}

function fileRow({ name, blob }) {
  const buttons = [button('Download', () => save(name, blob)), button('Remove', () => removeFile(name))];
  return [name, blob.size.toLocaleString('en'), el('span', { className: 'row' }, buttons)];
}

export async function showImages(panel) {
  const { images, files } = state;
  panel.append(el('h2', {}, 'Images'));
  if (!images.length) panel.append(el('p', {}, 'No image is open. Choose some, or drop them on this page.'));
  else {
    const saves = () => save('images.csv', new Blob([csv(images)]));
    panel.append(table(counted(images.length, 'image'), [...HEADS, 'What to do'], images.map(imageRow), { id: 'images' }));
    panel.append(button('Download this table as CSV', saves, { id: 'csv' }));
  }
  if (files.length) panel.append(table('Other files in this page', ['File', 'Bytes', ''], files.map(fileRow)));
}

const RANGES = 24; // ranges of changed blocks that are named

function blocksOf(change) {
  const named = change.ranges.slice(0, RANGES).flatMap(({ at, old, now }) => {
    const first = Math.floor(at / 512);
    const last = Math.max(first, Math.ceil((at + Math.max(old.length, now.length)) / 512) - 1);
    return [link(first === last ? String(first) : `${first}-${last}`, () => go('bytes', { block: first })), ' '];
  });
  return el('span', {}, named, change.ranges.length > RANGES ? '…' : '');
}

/** The changes made to the image, which blocks and which fields each touched, and undoing them. */
export async function showChanges(panel) {
  const { image } = state;
  const step = el('section', { 'aria-live': 'polite' });
  const rows = image.done.map((it, k) => [String(k + 1), el('code', {}, it.line), blocksOf(it),
    button('Fields', () => showStep(image, k + 1, step), { 'aria-label': `fields of change ${k + 1}` })]);
  panel.append(el('h2', {}, 'Changes'), rows.length ? table(`Changes to ${image.name}`, ['', 'By', 'Blocks', 'What it changed'], rows, { id: 'changes' })
    : el('p', {}, 'Nothing was changed.'), step, el('p', { className: 'row' },
    button('Undo the last', () => undo(image), { disabled: !image.done.length, id: 'undo' }),
      button('Make it again', () => undo(image, true), { disabled: !image.undone.length, id: 'redo' }),
    button('Download the image', () => saveImage(image))), el('p', { className: 'dim' },
      'The image on your disk stays as it is, until you save the changed one in its place.'));
}

/** Shows what one change did, field by field, with the values before and after it; and steps to the one before it and the next. */
async function showStep(image, number, place) {
  const ended = await runBetween(image, number - 1, (before, after) => ['diff', image.edition, before, after, '--fields']);
  const at = chooser('Change', number, 1, image.done.length, (it) => showStep(image, it, place));
  const same = ended.status === 0 ? el('p', {}, 'No byte is another.') : null;
  place.replaceChildren(el('h3', {}, 'Before and after'), at, el('pre', { className: 'code' }, `$ ${image.done[number - 1].line}`),
    fill(el('div', { id: 'fields' }), printed(ended), same));
}

export async function saveImage(image) {
  save(image.name, await wholeImage(image));
  image.isChanged = false;
  await tell('images');
  say(`${image.name} was saved as a download.`);
}

const typed = [];

/** The command line. Up and down go through what was typed. */
export async function showShell(panel) {
  const out = el('div', { id: 'shell-log', role: 'log', tabIndex: 0, 'aria-label': 'output' }, state.shell ?? '');
  const input = el('input', { id: 'line', spellcheck: false, autocomplete: 'off', autocapitalize: 'off', 'aria-label': 'command line',
    placeholder: state.image ? `icheck ${state.image.edition} ${state.image.name} 1` : 'help' });
  let k = typed.length;
  const moves = (step) => {
    k = Math.max(0, Math.min(typed.length, k + step));
    input.value = typed[k] ?? '';
  };
  input.addEventListener('keydown', (event) => ['ArrowUp', 'ArrowDown'].includes(event.key)
    && (event.preventDefault(), moves(event.key === 'ArrowUp' ? -1 : 1)));
  const form = el('form', { className: 'row', onsubmit: doing(() => typeLine(input.value.trim())) }, el('span', { className: 'code' }, '$ unixvol'), input,
    el('button', { type: 'submit' }, 'Run'));
  panel.append(el('h2', {}, 'Command line'), el('p', { className: 'dim' }, 'All of unixvol: ', el('code', {}, 'help'), ' lists its commands, ',
    el('code', {}, 'mkfs --help'), ' explains one. The files are those of this page: ', [...state.images, ...state.files].map((it) => it.name).join(', ')
    || 'none yet', '. | < and > work, with head, tail, grep, sed -n, od, dd, wc.'), out, form,
    el('details', { id: 'log' }, el('summary', {}, `All ${counted(log.length, 'command')} that this page ran`),
      el('pre', {}, log.map((it) => `$ ${it.line}    (status ${it.status}, ${it.ms.toFixed(0)} ms)`).join('\n'))));
  out.scrollTop = out.scrollHeight;
}

async function typeLine(line) {
  if (!line) return;
  typed.push(line);
  state.shell ??= el('div');
  const entry = el('div', { className: 'entry' }, el('b', {}, `$ ${line}`));
  state.shell.append(entry);
  try {
    const ended = await runLine(line);
    entry.append(ended.text ? lines(ended.text.slice(0, 1 << 18)) : '', ended.error ? el('pre', { className: 'bad' }, ended.error) : '', ended.status
      ? el('p', { className: 'dim' }, `status ${ended.status}`) : '');
  } catch (fault) {
    if (!(fault instanceof Stopped)) throw fault;
    entry.append(el('p', { className: 'bad' }, 'stopped'));
  }
  await go('shell');
  $('line').focus();
}
