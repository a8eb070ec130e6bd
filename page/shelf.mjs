// The images that are open, the changes made to them, and what is selected.
import { say } from './dom.mjs';
import { ask, renew, runs, shellWords } from './engine.mjs';

export const LARGEST = 512 * 1048576;
const LARGE = 16 * 1048576; // from here on an image isn't kept twice, and its memory is given back at once
const KEPT = 256 * 1048576; // bytes of changes that can be undone
export const state = { images: [], files: [], image: null, entry: null, inode: 2, block: 1, tab: 'lessons' };
const listeners = new Map();

/** Calls `listener` whenever `event` is told: `images`, `bytes`, `entry` or `tab`. */
export const on = (event, listener) => listeners.set(event, [...(listeners.get(event) ?? []), listener]);

export async function tell(event) {
  for (const listener of listeners.get(event) ?? []) await listener();
}

/** Goes to a tab, with another i-node or block to show there. */
export function go(tab, more = {}) {
  Object.assign(state, more, { tab });
  return tell('tab');
}

/** Runs a command and notes what it changed. */
export async function run(args, options = {}) {
  const ended = await runs(args.map(String), options);
  await note(ended.changes, `unixvol ${shellWords(args.map(String))}`);
  return ended;
}

/** The first two words of most commands: the edition and the image. */
export const at = (image = state.image) => [image.edition, image.name];

const found = (name) => state.images.find((it) => it.name === name);

/** Notes what a command made, changed or removed. */
export async function note(changes, line) {
  for (const it of changes) {
    const image = found(it.name);
    if (it.what === 'changed' && image) await noteChange(image, { line, ranges: it.ranges, before: it.before, after: it.after });
    else if (it.what === 'removed') await drop(it.name);
    else if (it.what === 'made' && image) await replace(image, it.blob);
    else if (it.what === 'made') await keepFile(it.name, it.blob);
    else await keepFile(it.name, (await ask('whole', { name: it.name })).blob);
  }
}

const weight = (change) => change.ranges.reduce((sum, it) => sum + it.old.length + it.now.length, 0);

async function noteChange(image, change) {
  image.done.push(change);
  Object.assign(image, { undone: [], size: change.after, isChanged: true });
  if (image.done.reduce((sum, it) => sum + weight(it), 0) > KEPT) {
    Object.assign(image, { source: (await ask('whole', { name: image.name })).blob, done: [] });
    say('The changes so far are too large to be undone.');
  }
  await judge(image);
  await tell('bytes');
}

async function replace(image, blob) {
  Object.assign(image, { source: blob, size: blob.size, done: [], undone: [], isChanged: true });
  await inspect(image);
  await tell('bytes');
}

/** Keeps a file that a command made: as an image if it is a volume. */
async function keepFile(name, blob) {
  const image = newImage(name, blob);
  await inspect(image);
  if (image.isVolume) {
    state.images.push(Object.assign(image, { isChanged: true }));
    await choose(image);
  } else {
    state.files = [...state.files.filter((it) => it.name !== name), { name, blob }];
    await tell('images');
  }
}

/** Writes a file that a command line names, in place of one with this name. */
export async function writeFile(name, bytes) {
  const blob = new Blob([bytes]);
  const image = found(name);
  await ask('add', { name, blob });
  if (image) await replace(image, blob);
  else await keepFile(name, blob);
}

async function drop(name) {
  state.files = state.files.filter((it) => it.name !== name);
  const image = found(name);
  if (!image) return;
  state.images = state.images.filter((it) => it !== image);
  if (state.image === image) await choose(state.images[0] ?? null);
  else await tell('images');
}

const newImage = (name, source) => ({ name, source, size: source.size, edition: '7', said: '', parts: [], done: [], undone: [], version: 0 });

/** Returns a name that a command line takes as one word, and that no other file has. */
function freshName(name) {
  const tidy = name.replace(/[^\w.+-]/g, '_').replace(/^-+/, '') || 'image';
  const isTaken = (it) => found(it) || state.files.some((file) => file.name === it);
  if (!isTaken(tidy)) return tidy;
  for (let k = 2; ; k++) if (!isTaken(`${k}_${tidy}`)) return `${k}_${tidy}`;
}

/** Opens an image; returns it, or null if it is too large. The caller chooses it. */
export async function open(name, blob, edition) {
  if (blob.size > LARGEST) {
    say(`${name} has more than 512 MB, which this page doesn't take. The program on your own machine does.`, true);
    return null;
  }
  const image = newImage(freshName(name), blob);
  image.source = (await ask('add', { name: image.name, blob, isKept: blob.size <= LARGE }, `reading ${name}`)).blob ?? blob;
  state.images.push(image);
  await inspect(image, edition);
  return image;
}

/** Puts a file beside the images, for a command to read; returns its name there. */
export async function addFile(name, blob) {
  const fresh = freshName(name);
  await ask('add', { name: fresh, blob }, `reading ${name}`);
  return fresh;
}

/** Forgets a file. The memory of a large one is given back with the worker's. */
export async function removeFile(name) {
  const size = found(name)?.size ?? 0;
  await ask('remove', { name });
  await drop(name);
  if (size > LARGE) await renew();
}

export async function choose(image) {
  Object.assign(state, { image, entry: null, inode: image?.edition === '6' ? 1 : 2, block: 1 });
  await tell('images');
  await tell('bytes');
}

const LINE = /^(\d+) ([^:]*): (.*)$/;

/** Reads the twelve lines of `check`. */
export const readCheck = (text) => text.split('\n').map((it) => LINE.exec(it)).filter(Boolean)
  .map(([line, rule, requires, says]) => ({ line, rule: Number(rule), requires, says, holds: says === 'holds' ? true : says === 'not asked' ? null : false }));

/** Finds out what an image is, and checks it. */
async function inspect(image, edition) {
  const said = (await runs(['identify', image.name])).text.trim();
  [image.said, ...image.parts] = said.slice(said.indexOf(': ') + 2).split('\n');
  const guessed = /^(?:looks like|at 0:) a volume of edition (\d)/.exec(image.parts[0]?.trim() ?? image.said)?.[1];
  image.isVolume = Boolean(guessed);
  if (edition ?? guessed) image.edition = edition ?? guessed;
  await judge(image);
}

/** Checks an image: the rules that it breaks, and how full it is. */
async function judge(image) {
  image.version++;
  const check = await runs(['check', ...at(image)]);
  image.check = check.text || check.error;
  image.rules = readCheck(check.text);
  image.broken = image.rules.filter((it) => it.holds === false);
  image.isSound = check.status === 0;
  image.isCut = image.broken[0]?.rule === 1 && image.size >= 1024;
  image.isReadable = image.rules.slice(0, 2).every((it) => it.holds) && image.rules.length === 12;
  image.use = image.isReadable ? JSON.parse((await runs(['df', '--json', ...at(image)])).text) : null;
}

export async function setEdition(image, edition) {
  await inspect(image, edition);
  await choose(image);
}

/** Undoes the last change, or makes the last undone one again. */
export async function undo(image, isAgain = false) {
  const [from, to] = isAgain ? [image.undone, image.done] : [image.done, image.undone];
  const change = from.pop();
  if (!change) return;
  const size = isAgain ? change.after : change.before;
  await ask('patch', { name: image.name, size, ranges: change.ranges.map((it) => ({ at: it.at, bytes: isAgain ? it.now : it.old })) });
  Object.assign(image, { size, isChanged: true });
  to.push(change);
  await judge(image);
  await tell('bytes');
  say(`${isAgain ? 'Made again' : 'Undone'}: ${change.line}`);
}

/** Changes bytes of an image directly. `line` is what does the same in a shell. */
export async function poke(image, from, bytes, line) {
  const start = from & -512;
  const old = (await ask('slice', { name: image.name, at: start, length: 512 * Math.ceil((from - start + bytes.length) / 512) })).bytes;
  const now = old.slice();
  now.set(bytes, from - start);
  await ask('patch', { name: image.name, size: image.size, ranges: [{ at: start, bytes: now }] });
  await noteChange(image, { line, ranges: [{ at: start, old, now }], before: image.size, after: image.size });
}

/** Gives a new worker all files. A large image is read again; if its file on the disk is another by now, it is closed. */
export async function refill() {
  for (const { name, source, done, size } of [...state.images]) {
    try {
      await ask('add', { name, blob: source, ranges: done.flatMap((it) => it.ranges), size });
    } catch {
      await drop(name);
      say(`${name} was closed: its file on the disk was changed or removed, and so it could not be read again.`, true);
    }
  }
  for (const { name, blob } of state.files) await ask('add', { name, blob });
}

/** Runs a command over the image as it was after its first `count` changes, and after one more; the two are files beside the others meanwhile. */
export async function runBetween(image, count, words) {
  const isLast = count + 1 === image.done.length;
  const names = [await copyOf(image, count, count), isLast ? image.name : await copyOf(image, count + 1, count + 1)];
  try {
    return await runs(words(...names));
  } finally {
    for (const name of names) if (name !== image.name) await ask('remove', { name });
  }
}

/** Makes a file with the image as it was after its first `count` changes. Returns its name, which ends with `label`. */
export async function copyOf({ name, source, done, size }, count, label) {
  const fresh = freshName(`${name}.${label}`);
  const ranges = done.slice(0, count).flatMap((it) => it.ranges);
  await ask('add', { name: fresh, blob: source, ranges, size: done[count]?.before ?? size });
  return fresh;
}

/** Returns the image's bytes, as they are now, as a Blob. */
export const wholeImage = async (image) => (await ask('whole', { name: image.name })).blob;
