// The worker: runs each command in a fresh instance of the module, over files in memory. Messages are answered in order.
import { Files, run } from './unixvol.mjs';

const PIECE = 512; // changes are kept in whole blocks
const PART = 1 << 22; // output that becomes a Blob, in bytes
const EVERY = 200; // milliseconds between two reports of progress
let files = new Files();
let program = null;
let turn = Promise.resolve();

/** Thrown out of a command whose output is longer than was asked for. */
class TooMuch extends Error {}

/** Collects what a command prints. */
class Output {
  constructor(id, limit) {
    Object.assign(this, { id, limit, parts: [], loose: [], loosely: 0, errors: [], length: 0, told: performance.now() });
  }
  take(stream, bytes) {
    if (stream !== 1) return void this.errors.push(bytes.slice());
    this.loose.push(bytes.slice());
    this.length += bytes.length;
    this.loosely += bytes.length;
    if (this.loosely > PART) this.pack();
    if (this.length > this.limit) throw new TooMuch();
    if (performance.now() - this.told > EVERY) {
      this.told = performance.now();
      postMessage({ id: this.id, progress: this.length });
    }
  }
  pack() {
    this.parts.push(new Blob(this.loose));
    this.loose = [];
    this.loosely = 0;
  }
  blob() {
    this.pack();
    return new Blob(this.parts);
  }
}

const isSame = (a, b, from, to) => {
  for (let k = from; k < to; k++) if (a[k] !== b[k]) return false;
  return true;
};

/** Returns a view of `bytes` by words of 32 bits, as far as they go. */
const words = (bytes) => (bytes.byteOffset % 4 ? null : new Int32Array(bytes.buffer, bytes.byteOffset, bytes.length >> 2));

/** Returns what differs between two files: for each range of blocks, where it begins, the old bytes and the new ones. */
function differences(old, now) {
  const end = Math.min(old.length, now.length) & -PIECE;
  const [a, b] = [words(old), words(now)];
  const same = (at) => (a && b ? isSame(a, b, at >> 2, (at + PIECE) >> 2) : isSame(old, now, at, at + PIECE));
  const found = [];
  for (let at = 0; at < end; ) {
    const from = at;
    while (at < end && !same(at)) at += PIECE;
    if (at > from) found.push({ at: from, old: old.slice(from, at), now: now.slice(from, at) });
    else at += PIECE;
  }
  const [oldTail, nowTail] = [old.slice(end), now.slice(end)];
  if (oldTail.length !== nowTail.length || !isSame(oldTail, nowTail, 0, oldTail.length)) found.push({ at: end, old: oldTail, now: nowTail });
  return found;
}

/** Returns the files that a command made, changed or removed, given what was there before it. */
function changes(before) {
  const found = [];
  for (const [name, file] of files) {
    const old = before.get(name);
    const now = files.bytes(name);
    if (!old) found.push({ name, what: 'made', blob: new Blob([now]) });
    else if (old.file !== file) {
      const ranges = differences(old.bytes, now);
      if (ranges.length) found.push({ name, what: 'changed', ranges, before: old.bytes.length, after: now.length });
    } else if (old.mtime !== file.mtime) found.push({ name, what: 'made', blob: new Blob([now]) });
  }
  for (const name of before.keys()) if (!files.has(name)) found.push({ name, what: 'removed' });
  return found;
}

/** Runs a command; `limit` bounds its output. If `isPlain`, its faults have no second line. */
function runs({ id, args, stdin, limit = Infinity, asBlob = false, isPlain = false }) {
  const before = new Map([...files].map(([name, file]) => [name, { file, bytes: files.bytes(name), mtime: file.mtime }]));
  const output = new Output(id, limit);
  const begun = performance.now();
  let status = null;
  let cut = false;
  try {
    const ended = run(program, args, files, { stdin, env: { UNIXVOL_EXPLAIN: isPlain ? '0' : '1' }, write: (stream, bytes) => output.take(stream, bytes) });
    status = ended.status;
  } catch (fault) {
    if (!(fault instanceof TooMuch)) throw fault;
    cut = true;
  }
  const blob = output.blob();
  return { status, cut, blob, length: output.length, asBlob, errors: new Blob(output.errors), ms: performance.now() - begun, changes: changes(before) };
}

/** Makes a file whose bytes are those of `blob`, with changes made to it. Returns a copy that stays even if a file on the disk changes,
  if that is asked for. */
async function add({ name, blob, ranges = [], size = blob.size, isKept = false }) {
  files.delete(name);
  let bytes = new Uint8Array(await blob.arrayBuffer());
  for (const { at, now } of ranges) {
    if (at + now.length > bytes.length) bytes = resized(bytes, at + now.length);
    bytes.set(now, at);
  }
  files.add(name, resized(bytes, size), 0o644);
  return isKept ? { blob: new Blob([bytes]) } : {};
}

function resized(bytes, size) {
  if (bytes.length === size) return bytes;
  const made = new Uint8Array(size);
  made.set(bytes.subarray(0, size));
  return made;
}

/** Puts bytes into a file, and makes it `size` bytes long. */
function patch({ name, ranges, size }) {
  const bytes = resized(files.bytes(name), size);
  for (const { at, bytes: now } of ranges) bytes.set(now.subarray(0, Math.max(0, size - at)), at);
  files.add(name, bytes, files.get(name).mode);
  return {};
}

const KINDS = {
  start: ({ module }) => ((program = module), {}),
  add,
  patch,
  remove: ({ name }) => (files.delete(name), {}),
  slice: ({ name, at, length }) => ({ bytes: files.bytes(name).slice(at, at + length) }),
  whole: ({ name }) => ({ blob: new Blob([files.bytes(name)]) }),
  async run(message) {
    const ended = runs(message);
    const output = ended.asBlob ? null : new Uint8Array(await ended.blob.arrayBuffer());
    return { ...ended, output, error: await ended.errors.text() };
  },
};

async function answer(message) {
  try {
    postMessage({ id: message.id, ...(await KINDS[message.what](message)) });
  } catch (fault) {
    postMessage({ id: message.id, failed: String(fault?.message ?? fault) });
  }
}

onmessage = ({ data }) => {
  turn = turn.then(() => answer(data));
};
