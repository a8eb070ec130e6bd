// What a byte of a volume belongs to, as docs/FORMATS.md has it: the field of the super-block, of an i-node or of a directory's slot.

const SUPER = {
  6: [['isize', 0, 2], ['fsize', 2, 2], ['nfree', 4, 2], ['free', 6, 200, 2], ['ninode', 206, 2], ['inode', 208, 200, 2], ['flock', 408, 1], ['ilock', 409, 1],
    ['fmod', 410, 1], ['ronly', 411, 1], ['time', 412, 4]],
  7: [['isize', 0, 2], ['fsize', 2, 4], ['nfree', 6, 2], ['free', 8, 200, 4], ['ninode', 208, 2], ['inode', 210, 200, 2], ['flock', 410, 1], ['ilock', 411, 1],
    ['fmod', 412, 1], ['ronly', 413, 1], ['time', 414, 4]],
};
const INODE = {
  6: [['mode', 0, 2], ['links', 2, 1], ['user', 3, 1], ['group', 4, 1], ['size, bits 16 to 23', 5, 1], ['size', 6, 2], ['addr', 8, 16, 2], ['accessed', 24, 4],
    ['modified', 28, 4]],
  7: [['mode', 0, 2], ['links', 2, 2], ['user', 4, 2], ['group', 6, 2], ['size', 8, 4], ['addr', 12, 39, 3], ['accessed', 52, 4], ['modified', 56, 4],
    ['changed', 60, 4]],
};
export const INODE_BYTES = { 6: 32, 7: 64 };

function field(table, at) {
  const one = table.find(([, from, length]) => at >= from && at < from + length);
  if (!one) return 'not used';
  const [name, from, length, each] = one;
  const part = each ? `${name}[${Math.floor((at - from) / each)}]` : name;
  const width = each ?? length;
  return width > 1 ? `${part}, byte ${(at - from) % width} of ${width}` : part;
}

/** Says what byte `at` of the image is. `blocks` is where the data zone begins, `use` the lines of `block` for the byte's block. */
export function byteOf(edition, at, use) {
  const block = Math.floor(at / 512);
  const inside = at % 512;
  if (block === 0) return 'boot block';
  if (block === 1) return `super-block: ${field(SUPER[edition], inside)}`;
  if (use.includes('i-list')) {
    const number = Math.floor((at - 1024) / INODE_BYTES[edition]) + 1;
    return `i-node ${number}: ${field(INODE[edition], (at - 1024) % INODE_BYTES[edition])}`;
  }
  return use.split('\n')[0].replace(/^block \d+: /, '');
}

/** The number in `length` bytes: words with the low byte first, and of two words the high one first. */
const number = (bytes, at, length) => (length === 1 ? bytes[at] : length === 2 ? bytes[at] + 256 * bytes[at + 1] : 65536 * number(bytes, at, 2)
  + number(bytes, at + 2, 2));

const KINDS = {
  6: (mode) => (mode & 0o100000 ? ['file', 'character', 'directory', 'block'][(mode & 0o60000) >> 13] : 'odd'),
  7: (mode) => ({ 0o10: 'file', 0o4: 'directory', 0o2: 'character', 0o3: 'multiplexor', 0o6: 'block', 0o7: 'multiplexor' })[mode >> 12] ?? 'odd',
};

/** Reads an i-node out of the bytes of an i-list, for the tree of a damaged volume. */
export function readInode(edition, list, ino) {
  const from = INODE_BYTES[edition] * (ino - 1);
  if (from + INODE_BYTES[edition] > list.length) return { kind: 'no i-node' };
  const of = (name) => {
    const [, at, length] = INODE[edition].find((it) => it[0] === name);
    return number(list, from + at, length);
  };
  const mode = of('mode');
  if (mode === 0) return { kind: 'free i-node' };
  const high = edition === '6' ? 65536 * list[from + 5] : 0;
  return { mode, kind: KINDS[edition](mode), permissions: mode & 0o7777, links: of('links'), uid: of('user'), gid: of('group'), size: high + of('size'),
    modified: of('modified') };
}

/** Returns the first byte of an i-node. */
export const inodeAt = (edition, number) => 1024 + INODE_BYTES[edition] * (number - 1);
