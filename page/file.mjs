// The tab of the selected file or directory: what it is, its bytes in three forms, and what can be done with it.
import { button, counted, el, link, longTable, modeText, moment, save, say } from './dom.mjs';
import { asText, isText, od } from './dumps.mjs';
import { changeMode, exportTree, makeDirectory, makeSpecial, move, putChosen, remove } from './edit.mjs';
import { at, go, run, state } from './shelf.mjs';

const FIRST = 1 << 16; // bytes that are shown at first
const READ = 1 << 25; // bytes of a file that are read to be shown
const SLOTS = 1 << 24; // characters of a directory's slots that are read
const FORMS = { text: asText, octal: (bytes) => od(bytes), hexadecimal: (bytes) => od(bytes, 'x1z', true) };

/** What a command calls the file: its path, or its i-number if the path is no text. */
export const called = (entry) => entry.word ?? String(entry.inode);

/** What is known of a file, as far as it is. */
function facts(entry) {
  const known = [entry.kind];
  if (entry.permissions !== undefined) known.push(modeText(entry.kind, entry.permissions));
  if (entry.uid !== undefined) known.push(`user ${entry.uid}, group ${entry.gid}`);
  if (entry.major !== undefined) known.push(`major ${entry.major}, minor ${entry.minor}`);
  else if (entry.size !== undefined) known.push(counted(entry.size, 'byte'));
  if (entry.links !== undefined) known.push(counted(entry.links, 'link'));
  if (entry.modified !== undefined) known.push(`${moment(entry.modified)} UTC`);
  return known.join(' · ');
}

export async function showFile(panel) {
  const entry = state.entry ?? state.image.tree;
  const { inode } = entry;
  panel.append(el('h2', {}, entry.path));
  if (!inode) return panel.append(el('p', {}, 'Directories and files that no way leads to from the root are below.'));
  panel.append(
    el('p', {}, facts(entry), ' · ', link(`i-node ${inode}`, () => go('inode', { inode })), ' · ', link('its blocks on the map', () => go('map', { inode }))),
    el('p', { className: 'row' }, actions(entry)),
  );
  if (entry.kind === 'directory') await showSlots(panel, entry);
  else if (entry.kind === 'file') await showBytes(panel, entry);
  else panel.append(el('p', {}, 'It has no bytes to show.'));
}

/** The buttons for a file or a directory. */
function actions(entry) {
  const isRoot = entry.path === '/';
  const isDirectory = entry.kind === 'directory';
  const isFixed = !state.image.isSound || entry.word === null;
  const changing = (label, id, work, isOff = false) => button(label, () => work(entry),
    { id, disabled: isFixed || isOff, title: isFixed ? 'only a sound volume is changed' : '' });
  const made = isDirectory
    ? [changing('Put files here…', 'put', putChosen), changing('New directory…', 'mkdir', makeDirectory),
      changing('New special file…', 'mknod', makeSpecial),
      button('Export as tar', () => exportTree(entry), { id: 'export', disabled: entry.word === null })]
    : [button('Download', () => download(entry), { id: 'download', disabled: entry.kind !== 'file' })];
  made.push(changing('Permissions…', 'chmod', changeMode));
  if (!isRoot) made.push(changing('Rename…', 'mv', move, isDirectory), changing('Remove…', 'rm', remove));
  return made;
}

async function download(entry) {
  const ended = await run(['cat', ...at(), called(entry)], { asBlob: true, into: entry.name });
  if (ended.status) say(ended.error.trim(), true);
  else save(entry.name, ended.blob);
}

/** The slots of a directory, with the names that were removed. */
async function showSlots(panel, entry) {
  if (entry.word === null) return panel.append(el('p', {}, 'Its path is no text, so only its bytes can be shown: look at its i-node.'));
  const ended = await run(['ls', '--slots', ...at(), entry.word], { limit: SLOTS });
  const slots = (ended.text ?? '').split('\n').map((it) => /^ *(\d+) +(\d+) (.*)$/.exec(it)).filter(Boolean);
  const cells = ([, slot, number, name]) => {
    const inode = Number(number);
    return inode ? [slot, link(number, () => go('inode', { inode })), name] : [slot, '0', el('span', { className: 'dim' }, `${name} (removed)`)];
  };
  panel.append(longTable('Its slots', ['Slot', 'I-node', 'Name'], slots, cells, { id: 'slots' }));
  if (ended.cut) panel.append(el('p', {}, 'The directory has more slots than this page reads; ', el('code', {}, 'ls --slots'), ' shows all.'));
  if (ended.error) panel.append(el('pre', { className: 'bad' }, ended.error));
}

async function showBytes(panel, entry) {
  const ended = await run(['cat', ...at(), called(entry)], { limit: READ });
  if (ended.error) panel.append(el('pre', { className: 'bad' }, ended.error));
  const bytes = ended.output;
  const form = isText(bytes) ? 'text' : 'octal';
  const pre = el('pre', { id: 'bytes-of-file', tabIndex: 0 });
  const more = el('p', {});
  const shows = (it, end = FIRST) => {
    pre.textContent = FORMS[it](bytes.subarray(0, end));
    const left = bytes.length - end;
    more.replaceChildren(...(left > 0 ? [button(`Show more: ${counted(left, 'byte')} follow`, () => shows(it, end * 4))] : ended.cut
      ? ['The file is longer than 32 MB; download it to see the rest.'] : []));
  };
  const radios = Object.keys(FORMS).map((it) => el('label', {},
    el('input', { type: 'radio', name: 'form', value: it, checked: it === form, onchange: () => shows(it) }), ` ${it} `));
  panel.append(el('fieldset', { className: 'row' }, el('legend', { className: 'unseen' }, 'Show the bytes as'), radios), pre, more);
  shows(form);
}
