// Folders that are dropped on the page: a tar archive of what is in them, which `import` takes.

const BLOCK = 512;
const NAME = 100; // bytes of a path that the header of a member holds
const utf8 = new TextEncoder();

/** The files and folders that were dropped. They are known only while the event is handled. */
export const droppedEntries = (dropped) => [...(dropped.items ?? [])].map((it) => it.webkitGetAsEntry?.()).filter(Boolean);

const fileOf = (entry) => new Promise((done, fails) => entry.file(done, fails));

/** What is in a folder, by name. A browser gives it a part at a time. */
async function kidsOf(folder) {
  const reader = folder.createReader();
  const kids = [];
  for (;;) {
    const some = await new Promise((done, fails) => reader.readEntries(done, fails));
    if (!some.length) return kids.sort((a, b) => (a.name < b.name ? -1 : 1));
    kids.push(...some);
  }
}

/** The bytes of a header: `size` bytes of a member of this type follow. */
function header(path, { type, mode, size, modified }) {
  const bytes = new Uint8Array(BLOCK);
  const put = (at, text) => bytes.set(utf8.encode(text), at);
  const number = (at, length, value) => put(at, value.toString(8).padStart(length - 1, '0'));
  bytes.set(path.subarray(0, NAME));
  number(100, 8, mode);
  number(108, 8, 0);
  number(116, 8, 0);
  number(124, 12, size);
  number(136, 12, modified);
  put(148, '        ');
  put(156, type);
  put(257, 'ustar\u000000');
  number(148, 7, bytes.reduce((sum, it) => sum + it, 0));
  return bytes;
}

const padding = (size) => new Uint8Array((BLOCK - (size % BLOCK)) % BLOCK);

/** The header of pax that gives the next member a path longer than its own header holds. */
function longPath(path) {
  const rest = path.length + ' path=\n'.length;
  const length = [1, 2, 3, 4, 5].map((digits) => rest + digits).find((it, k) => String(it).length === k + 1);
  const start = utf8.encode(`${length} path=`);
  const record = new Uint8Array([...start, ...path, 10]);
  return [header(utf8.encode('path'), { type: 'x', mode: 0o644, size: record.length, modified: 0 }), record, padding(record.length)];
}

/** The parts of a member: its headers, and its bytes. */
function member(path, what, contents) {
  const name = utf8.encode(path);
  return [...(name.length > NAME ? longPath(name) : []), header(name, what), ...contents];
}

async function addEntry(parts, entry, path, now) {
  if (!entry.isDirectory) {
    const file = await fileOf(entry);
    const what = { type: '0', mode: 0o644, size: file.size, modified: Math.max(0, Math.floor(file.lastModified / 1000)) };
    parts.push(...member(path, what, [file, padding(file.size)]));
    return;
  }
  parts.push(...member(`${path}/`, { type: '5', mode: 0o755, size: 0, modified: now }, []));
  for (const kid of await kidsOf(entry)) await addEntry(parts, kid, `${path}/${kid.name}`, now);
}

/** A tar archive of files and folders, each under its name, as a blob. Browsers don't report permissions: files get 0644, directories 0755. */
export async function archiveOf(entries) {
  const parts = [];
  const now = Math.floor(Date.now() / 1000);
  for (const entry of entries) await addEntry(parts, entry, entry.name, now);
  return new Blob([...parts, new Uint8Array(2 * BLOCK)]);
}
