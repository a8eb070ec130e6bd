// What changes a volume: files put in, directories made, names removed, and the archives that go in and out.
import { Stopped, asks, chooseFiles, counted, save, say } from './dom.mjs';
import { ask } from './engine.mjs';
import { archiveOf } from './folders.mjs';
import { addFile, at, choose, open, removeFile, run, state, wholeImage } from './shelf.mjs';
import { reveal } from './tree.mjs';

const ASKED = 1 << 28; // bytes of an archive after which the page asks
const NAME = 14; // the most bytes of a name in a volume
const join = (up, name) => `${up === '/' ? '' : up}/${name}`;

/** Runs a command that changes the volume, and says what came of it. Returns true if it succeeded. */
async function changes(args, done, options) {
  const ended = await run(args, options);
  if (ended.status) say(ended.error.trim().split('\n').join(' '), true);
  else say(done);
  return ended.status === 0;
}

export async function putChosen(directory) {
  await putFiles(await chooseFiles(), directory);
}

/** Puts files into a directory of the volume. */
export async function putFiles(list, directory) {
  if (!list.length) return;
  if (!state.image.isSound) return say('Only a sound volume is changed: nothing was put into it.', true);
  const names = [];
  for (const it of list) names.push([it.name, await addFile(it.name, it)]);
  const count = await putNamed(names, directory);
  for (const [, outside] of names) await removeFile(outside);
  if (count > 1) say(`${counted(count, 'file')} put into ${directory.path}.`);
  if (count) await reveal(join(directory.path, names[count - 1][0].slice(0, NAME)));
}

/** Puts files by one command, if they have their names outside too, else one by one. Of several with a name that would be cut none is put, as by that command:
 * two could be the same file. Returns how many went in. */
async function putNamed(names, directory) {
  if (names.length > 1 && names.every(([name, outside]) => name === outside)) {
    const isDone = await changes(['put', ...at(), '-t', directory.word, ...names.map(([name]) => name)], '');
    return isDone ? names.length : 0;
  }
  const long = names.length > 1 && names.find(([name]) => new TextEncoder().encode(name).length > NAME);
  if (long) {
    say(`${long[0]} has a name above ${NAME} bytes: nothing was put into ${directory.path}.`, true);
    return 0;
  }
  for (const [k, [name, outside]] of names.entries()) {
    if (!(await changes(['put', ...at(), join(directory.word, name), outside], `${name} is in the volume.`))) return k;
  }
  return names.length;
}

export async function makeDirectory(directory) {
  const given = await asks('New directory', [{ name: 'name', label: `Name in ${directory.path}`, hint: 'At most 14 bytes.' }], { ok: 'Make' });
  if (!given?.name) return;
  if (await changes(['mkdir', ...at(), join(directory.word, given.name)], `${given.name} was made.`)) await reveal(join(directory.path,
    given.name.slice(0, NAME)));
}

export async function makeSpecial(directory) {
  const given = await asks('New special file', [
    { name: 'name', label: `Name in ${directory.path}`, hint: 'At most 14 bytes.' },
    { name: 'kind', label: 'Kind of the device', value: 'c', options: [{ value: 'c', label: 'a character device, as a terminal' },
      { value: 'b', label: 'a block device, as a disk' }] },
    { name: 'major', label: 'Major number', value: '0', hint: 'It names the driver, from 0 to 255.' },
    { name: 'minor', label: 'Minor number', value: '0', hint: 'The unit, as the driver numbers it, from 0 to 255.' },
    { name: 'perm', label: 'Permissions, octal', value: '0644' },
  ], { ok: 'Make' });
  if (!given?.name) return;
  const { name, kind, major, minor, perm } = given;
  if (await changes(['mknod', ...at(), join(directory.word, name), kind, major, minor, perm], `${name} was made.`)) await reveal(join(directory.path,
    name.slice(0, NAME)));
}

export async function move(entry) {
  const given = await asks('Rename or move', [{ name: 'to', label: 'New path', value: entry.word }], { ok: 'Rename' });
  if (!given?.to || given.to === entry.word) return;
  if (await changes(['mv', ...at(), entry.word, given.to], `${entry.name} is now ${given.to}.`)) await reveal(given.to);
}

export async function changeMode(entry) {
  const given = await asks('Permissions',
    [{ name: 'perm', label: 'Octal, as 0755', value: `0${(entry.permissions ?? 0).toString(8)}`,
    hint: '400, 200, 100: the owner reads, writes, executes; 40, 20, 10: the group; 4, 2, 1: everyone else.' }], { ok: 'Change' });
  if (!given?.perm) return;
  if (await changes(['chmod', ...at(), entry.word, given.perm], `${entry.path} has permissions ${given.perm}.`)) await reveal(entry.path);
}

export async function remove(entry) {
  const isTree = entry.kind === 'directory';
  const given = await asks(`Remove ${entry.path}?`, [], { ok: 'Remove', note: isTree
    ? 'The directory is removed with all that is in it. You can undo this in Changes.' : 'You can undo this in Changes.' });
  if (!given) return;
  if (await changes(['rm', ...(isTree ? ['-r'] : []), ...at(), entry.word], `${entry.path} was removed.`)) await reveal(entry.up);
}

/** Writes everything below a directory into an archive that the user saves. */
export async function exportTree(entry) {
  const lost = state.image.isSound || entry.path !== '/' ? [] : ['--lost'];
  const name = `${state.image.name}${entry.path === '/' ? '' : entry.word.replaceAll('/', '_')}.tar`;
  const ended = await savesArchive(['export', ...lost, ...at(), ...(entry.path === '/' ? [] : [entry.word])], name);
  if (ended) say(ended.error.trim() || `${name} was saved.`, Boolean(ended.status));
}

/** Writes the files of an image with lost blocks into an archive: those that are whole, or the damaged ones too. `lost` are the options that say which
  blocks are lost. Returns what is said of the others. */
export async function exportRescued(lost, isWithDamaged) {
  const name = `${state.image.name}.tar`;
  const ended = await savesArchive(['export', ...lost, ...(isWithDamaged ? ['--damaged'] : []), ...at()], name);
  if (!ended) return '';
  say(ended.length ? `${name} was saved.` : 'Nothing was saved.', !ended.length);
  return ended.error;
}

/** Runs a command that writes an archive, and saves that. A very long one is asked for first. Returns what the command came to; null if nothing is saved. */
async function savesArchive(args, name, limit = ASKED) {
  try {
    const ended = await run(args, { asBlob: true, into: name, limit });
    if (!ended.cut) {
      if (ended.length) save(name, ended.blob);
      return ended;
    }
    const goesOn = await asks('A large archive', [], { ok: 'Go on',
      note: `The archive has more than ${limit / 1048576} MB. A damaged image can make one that is far larger than itself. Go on?` });
    if (goesOn) return savesArchive(args, name, limit * 8);
    say('Nothing was saved.');
  } catch (fault) {
    if (!(fault instanceof Stopped)) throw fault;
    say('Stopped: nothing was saved.');
  }
  return null;
}

/** Adds the files of a tar archive to a directory. */
export async function importArchive(blob, name, directory) {
  const stdin = await bytesOf(blob);
  if (await changes(['import', ...at(), directory.word], `The files of ${name} are in ${directory.path}.`, { stdin, from: name })) await reveal(directory.path);
}

/** Makes files and folders of the host, with all that is below them, in a directory: all, or none. Nothing is replaced. */
export async function importFolders(entries, directory) {
  const names = entries.map((it) => it.name).join(', ');
  await importArchive(await archiveOf(entries), names, directory);
}

const DISKS = [['rk05', 4872], ['rk06', 27126], ['rk07', 53790], ['rl01', 10240], ['rl02', 20480], ['rm03', 131680], ['rp03', 81200], ['rp04', 171798],
  ['rp06', 340670], ['rx01', 500], ['rx02', 1001]];

export async function newVolume() {
  const disks = DISKS.map(([value, blocks]) => ({ value, label: `${value}: ${blocks.toLocaleString('en')} blocks` }));
  const given = await asks('New volume', [
    { name: 'name', label: 'Name of the image', value: 'disk.img' },
    { name: 'edition', label: 'Edition of Unix', value: '7', options: [{ value: '7', label: 'Seventh (1979)' }, { value: '6', label: 'Sixth (1975)' }] },
    { name: 'disk', label: 'Disk', value: 'rk05', options: [...disks, { value: '', label: 'of as many blocks as said below' }] },
    { name: 'blocks', label: 'Blocks of 512 bytes', value: '4000' },
    { name: 'list', label: 'Blocks of the i-list', hint: 'Left empty, mkfs chooses.' },
  ], { ok: 'Make' });
  if (!given) return;
  const ended = await run(['mkfs', '--new', given.edition, given.name || 'disk.img', given.disk || given.blocks, ...(given.list ? [given.list] : [])]);
  if (ended.status) say(ended.error.trim(), true);
  else say(`${given.name} was made.`);
}

/** Repairs the free list, after it is said how that would change. */
export async function salvage() {
  const tried = await run(['salvage', ...at(), '-n']);
  if (tried.status) return say(tried.error.trim(), true);
  const given = await asks('Repair the free list?', [], { ok: 'Repair',
    note: `${tried.text.trim()}. Files and directories stay as they are. You can undo this in Changes.` });
  if (given) await changes(['salvage', ...at()], 'The free list was rebuilt.');
}

/** Makes a sound copy of a damaged volume, and opens it. */
export async function repair() {
  const { image } = state;
  const given = await asks('Make a repaired copy?', [
    { name: 'name', label: 'Name of the copy', value: `repaired_${image.name}` },
    { name: 'blocks', label: 'Blocks of 512 bytes, at least', hint: 'Left empty, it is as large as the volume.' },
  ], { ok: 'Repair', note: `${image.name} stays as it is.` });
  if (!given?.name) return;
  const ended = await run(['repair', '--new', ...(given.blocks ? ['--blocks', given.blocks] : []), ...at(image), given.name], { limit: ASKED });
  if (ended.status) say(ended.error.trim().split('\n').join(' '), true);
  else say(`${given.name} was made: it is sound.`);
}

const VOLUME = /^  at (\d+): a volume of edition (\d), with (\d+) blocks/;

/** What is inside a file that is no volume itself: the volumes of a pack, one with bytes exchanged, or one that is packed by gzip. */
export function insides(image) {
  const volumes = image.parts.map((it) => VOLUME.exec(it)).filter(Boolean).map((it) => it.slice(1).map(Number));
  if (volumes.length) {
    return volumes.map(([block, edition, blocks]) => ({
      label: `Open the volume of edition ${edition} at block ${block}`,
      open: () => opensPart(image, { block, blocks }, String(edition)),
    }));
  }
  if (image.said.includes('each pair of bytes exchanged')) {
    return [{ label: 'Exchange each pair of bytes, and open that', open: async () => opens(`swapped_${image.name}`,
      await swapped(await wholeImage(image))) }];
  }
  if (image.said.includes('packed by gzip')) {
    return [{ label: 'Unpack it, and open that', open: async () => opens(image.name.replace(/\.gz$/, ''),
      await unpacked(await wholeImage(image))) }];
  }
  return [];
}

const bytesOf = async (blob) => new Uint8Array(await blob.arrayBuffer());

/** The bytes that a pack has now in a volume's place. */
const partOf = async (pack, { block, blocks }) => (await ask('slice', { name: pack.name, at: 512 * block, length: 512 * blocks })).bytes;

/** Opens a volume of a pack as an image of its own, which knows its place in the pack, and what was there. */
async function opensPart(pack, place, edition) {
  const cut = new Blob([await partOf(pack, place)]);
  const image = await opens(`${pack.name}.${place.block}`, cut, edition);
  if (image) image.within = { pack, cut, ...place };
}

/** Saves the pack that a volume was opened from, with the volume as it is now in its place. If that place was changed too, it is asked for first. */
export async function saveInPack(image) {
  const { pack, cut, block, blocks } = image.within;
  if (image.size !== 512 * blocks) {
    return say(`${image.name} has ${counted(image.size, 'byte')} now, and its place in ${pack.name} ${512 * blocks}: nothing was saved.`, true);
  }
  const [was, now] = [await bytesOf(cut), await partOf(pack, image.within)];
  const isAsItWas = was.length === now.length && was.every((it, k) => it === now[k]);
  if (!isAsItWas && !(await asks(`Replace the volume in ${pack.name}?`, [], { ok: 'Replace',
    note: `${pack.name} was changed in this place since ${image.name} was opened from it. That change is lost in what is saved.` }))) {
    return say('Nothing was saved.');
  }
  const around = await wholeImage(pack);
  save(pack.name, new Blob([around.slice(0, 512 * block), await wholeImage(image), around.slice(512 * (block + blocks))]));
  image.isChanged = false;
  say(`${pack.name} was saved as a download, with ${image.name} in its place.`);
}

async function opens(name, blob, edition) {
  const image = await open(name, blob, edition);
  if (image) await choose(image);
  return image;
}

const unpacked = (blob) => new Response(blob.stream().pipeThrough(new DecompressionStream('gzip'))).blob();

async function swapped(blob) {
  const bytes = await bytesOf(blob);
  for (let k = 0; k + 1 < bytes.length; k += 2) [bytes[k], bytes[k + 1]] = [bytes[k + 1], bytes[k]];
  return new Blob([bytes]);
}
