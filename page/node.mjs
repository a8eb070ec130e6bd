#!/usr/bin/env node
// The command `unixvol` over the files of the machine, under Node: node unixvol.mjs WORD.. It takes the module beside it.
import fs from 'node:fs';
import path from 'node:path';
import tty from 'node:tty';
import { fileURLToPath } from 'node:url';
import { FLAGS, HostError, sought, start } from './unixvol.mjs';

/** The most bytes that one call of the system moves. */
const MOST = 1 << 30;

/** How long to wait before a try again, in milliseconds. */
const PAUSE = 5;

/** What Node calls Linux's flags of `open`. */
const NODE_FLAGS = [
    [FLAGS.WRITE, fs.constants.O_WRONLY],
    [FLAGS.UPDATE, fs.constants.O_RDWR],
    [FLAGS.CREATE, fs.constants.O_CREAT],
    [FLAGS.EXCLUSIVE, fs.constants.O_EXCL],
    [FLAGS.TRUNCATE, fs.constants.O_TRUNC],
    [FLAGS.APPEND, fs.constants.O_APPEND],
];

const waiting = new Int32Array(new SharedArrayBuffer(4));

/** Moves bytes, and tries again while a pipe or a terminal that doesn't wait has none, or no room for them. */
function moved(move) {
    for (;;) {
        try {
            return move();
        } catch (error) {
            if (error.code === 'EOF') return 0; // Windows says so at the end of a pipe.
            if (error.code !== 'EAGAIN') throw error;
            Atomics.wait(waiting, 0, 0, PAUSE);
        }
    }
}

/** The name of a file as the system takes it. */
const named = (bytes) => Buffer.from(bytes);

/** Where the open files and disks are read and written, since Node itself can't seek. Pipes and terminals have no such place. */
const places = new Map();

/** Moves bytes between a file and `bytes`, at the file's place if it has one. */
function passed(move, descriptor, bytes) {
    const at = places.get(descriptor) ?? null;
    const count = moved(() => move(descriptor, bytes, 0, Math.min(bytes.length, MOST), at));
    if (at !== null) places.set(descriptor, at + count);
    return count;
}

/** The names in the open folders that weren't read yet. */
const unread = new Map();

/** True if a disk has a byte at `at`, also one that can't be read. */
function hasByte(descriptor, at) {
    try {
        return fs.readSync(descriptor, Buffer.alloc(1), 0, 1, at) !== 0;
    } catch (error) {
        if (error.code !== 'EIO') throw error;
        return true;
    }
}

/** True if a disk that can be read ends before `at`. */
function endsBefore(descriptor, at) {
    try {
        return at > 0 && !hasByte(descriptor, at - 1);
    } catch (error) {
        if (error.code !== 'EBADF') throw error;
        return false;
    }
}

/** Returns the size of a disk, which Node doesn't say, by a search for its last byte. */
function sizeOfDisk(descriptor) {
    let size = 0;
    let above = 1;
    while (hasByte(descriptor, above - 1)) [size, above] = [above, 2 * above];
    while (above - size > 1) {
        const middle = Math.floor((size + above) / 2);
        if (hasByte(descriptor, middle - 1)) size = middle;
        else above = middle;
    }
    return size;
}

/** The files of this machine. Node can't lock any. */
const machine = {
    open(name, flags, mode) {
        const known = NODE_FLAGS.filter(([flag]) => flags & flag).reduce((all, [, flag]) => all | flag, 0);
        const descriptor = fs.openSync(named(name), known, mode);
        const stats = fs.fstatSync(descriptor);
        if ((stats.isFile() || stats.isBlockDevice()) && !(flags & FLAGS.APPEND)) places.set(descriptor, 0);
        return descriptor;
    },
    read: (descriptor, into) => passed(fs.readSync, descriptor, into),
    write: (descriptor, bytes) => passed(fs.writeSync, descriptor, bytes),
    seek(descriptor, offset, from) {
        const at = places.get(descriptor);
        if (at === undefined) throw new HostError('ESPIPE');
        const stats = fs.fstatSync(descriptor);
        const isDisk = !stats.isFile();
        const size = isDisk && from === 2 ? sizeOfDisk(descriptor) : stats.size;
        const to = sought(offset, from, at, size);
        if (isDisk && endsBefore(descriptor, to)) throw new HostError('EINVAL'); // as Linux says it
        places.set(descriptor, to);
        return to;
    },
    close(descriptor) {
        places.delete(descriptor);
        unread.delete(descriptor);
        fs.closeSync(descriptor);
    },
    mkdir: (name, mode) => void fs.mkdirSync(named(name), { mode }),
    openFolder(name) {
        const found = fs.readdirSync(named(name), { encoding: 'buffer' });
        const descriptor = fs.openSync(named(name), fs.constants.O_RDONLY);
        unread.set(descriptor, found);
        return descriptor;
    },
    names: (descriptor) => unread.get(descriptor),
    stats: (descriptor) => fs.fstatSync(descriptor, { bigint: true }),
    statsAt: (name, follows) => (follows ? fs.statSync : fs.lstatSync)(named(name), { bigint: true }),
    truncate: (descriptor, size) => fs.ftruncateSync(descriptor, size),
    chmod: (descriptor, mode) => fs.fchmodSync(descriptor, mode),
    chown: (descriptor, user, group) => fs.fchownSync(descriptor, user, group),
    times(descriptor, accessed, modified) {
        const { atimeMs, mtimeMs } = fs.fstatSync(descriptor);
        fs.futimesSync(descriptor, accessed ?? atimeMs / 1000, modified ?? mtimeMs / 1000);
    },
    sync: (descriptor) => fs.fsyncSync(descriptor),
    rename: (from, to) => fs.renameSync(named(from), named(to)),
    unlink: (name) => fs.unlinkSync(named(name)),
    readlink: (name) => fs.readlinkSync(named(name), 'buffer'),
    isatty: (descriptor) => tty.isatty(descriptor),
};

/** The words of the command line. Node has them as texts; where the system shows them as bytes, those that are no UTF-8 stay as they are. */
function words() {
    const texts = process.argv.slice(2);
    try {
        const all = fs.readFileSync('/proc/self/cmdline', 'latin1').split('\0').slice(0, -1);
        return all.slice(all.length - texts.length).map((word) => Buffer.from(word, 'latin1'));
    } catch {
        return texts;
    }
}

/** Runs the command, and ends with its status. */
function main() {
    const module = new WebAssembly.Module(fs.readFileSync(new URL('unixvol.wasm', import.meta.url)));
    process.exit(start(module, words(), process.env, machine).status);
}

/** True if Node was started with this file, or with unixvol.mjs beside it. It need not have been started with a file. */
function isCommand() {
    try {
        const here = fs.realpathSync(path.dirname(fileURLToPath(import.meta.url)));
        const started = fs.realpathSync(process.argv[1]);
        return path.dirname(started) === here && ['unixvol.mjs', 'node.mjs'].includes(path.basename(started));
    } catch {
        return false;
    }
}

if (isCommand()) main();
