// Runs the program `unixvol`, compiled for WebAssembly, over files in memory: in a page, a worker or Node. unixvol.d.mts has the types.
// `node unixvol.mjs WORD..` is the command, over the files of the machine (node.mjs).

/** The name that the program has in its messages. */
const NAME = 'unixvol';

/** The numbers of errors on Linux, which the program knows. */
const ERRORS = {
    EPERM: 1, ENOENT: 2, EINTR: 4, EIO: 5, ENXIO: 6, EBADF: 9, EAGAIN: 11, ENOMEM: 12, EACCES: 13, EBUSY: 16, EEXIST: 17, EXDEV: 18, ENODEV: 19,
    ENOTDIR: 20, EISDIR: 21, EINVAL: 22, ENFILE: 23, EMFILE: 24, ENOTTY: 25, ETXTBSY: 26, EFBIG: 27, ENOSPC: 28, ESPIPE: 29, EROFS: 30, EMLINK: 31,
    EPIPE: 32, ENAMETOOLONG: 36, ENOSYS: 38, ENOTEMPTY: 39, ELOOP: 40, EOPNOTSUPP: 95, ENOTSUP: 95, EDQUOT: 122,
};

/** Linux's flags of `open`, which the program uses. */
export const FLAGS = { WRITE: 1, UPDATE: 2, CREATE: 0o100, EXCLUSIVE: 0o200, TRUNCATE: 0o1000, APPEND: 0o2000 };

/** The permissions that a new file doesn't get. */
const UMASK = 0o022;

/** The kinds of files in their modes. */
const KINDS = { DIRECTORY: 0o040000, FILE: 0o100000, PIPE: 0o010000 };

/** The statuses of a run that the program didn't end itself, as a shell has them: out of memory, interrupted, aborted, out of its stack. */
const NO_MEMORY = 4, INTERRUPTED = 130, ABORTED = 134, FAULTED = 139;

const utf8 = new TextEncoder();
const text = new TextDecoder();

/** An error of a host, with the name that Linux has for its number, as Node's errors have it. */
export class HostError extends Error {
    constructor(code) {
        super(code);
        this.code = code;
    }
}

/** Returns the offset that a seek leads to, in a file of `size` bytes that is read and written at `at`. `from` is Linux's number. */
export function sought(offset, from, at, size) {
    const to = offset + [0, at, size][from];
    if (!(to >= 0)) throw new HostError('EINVAL');
    return to;
}

/** The end of a run at a call of the host. */
class Ended {
    constructor(status) {
        this.status = status;
    }
}

/** Returns the bytes of a word, which may be a text. */
const bytesOf = (word) => (typeof word === 'string' ? utf8.encode(word) : word);

/** The memory of a run, as the calls of the program see it. */
class Memory {
    #memory;
    #seen;

    use(memory) {
        this.#memory = memory;
        this.#seen = new Uint8Array(memory.buffer);
    }

    /** All bytes. When the memory grows, an earlier view of it is empty. */
    get all() {
        if (this.#seen.buffer !== this.#memory.buffer) this.#seen = new Uint8Array(this.#memory.buffer);
        return this.#seen;
    }

    get size() {
        return this.#memory?.buffer.byteLength ?? 0;
    }

    part(at, size) {
        return this.all.subarray(Number(at), Number(at) + Number(size));
    }

    /** The bytes at `at` up to a zero. */
    path(at) {
        const start = Number(at);
        return this.all.slice(start, this.all.indexOf(0, start));
    }

    /** Puts bytes at `at`, and returns their number: -1 if there are none to put, -2 if they don't fit; then the buffer is full. */
    give(bytes, at, size) {
        if (bytes === undefined) return -1n;
        const fits = bytes.length <= Number(size);
        this.all.set(fits ? bytes : bytes.subarray(0, Number(size)), Number(at));
        return fits ? BigInt(bytes.length) : -2n;
    }

    /** Puts what is known of a file at `at`, as Linux's `struct statx` has it. */
    giveStats(stats, at) {
        const start = Number(at);
        const view = new DataView(this.#memory.buffer, start, 256);
        this.all.fill(0, start, start + 256);
        view.setUint32(0, 0x7ff, true); // what is known: all of POSIX's `stat`
        view.setUint32(4, 4096, true);
        view.setUint32(16, Number(stats.nlink), true);
        view.setUint32(20, Number(stats.uid), true);
        view.setUint32(24, Number(stats.gid), true);
        view.setUint16(28, Number(stats.mode), true);
        view.setBigUint64(32, BigInt.asUintN(64, stats.ino), true);
        view.setBigUint64(40, stats.size, true);
        view.setBigUint64(48, stats.blocks, true);
        this.#giveTime(view, 64, stats.atimeNs);
        this.#giveTime(view, 96, stats.ctimeNs);
        this.#giveTime(view, 112, stats.mtimeNs);
        view.setUint32(136, Number(BigInt.asUintN(32, stats.dev >> 32n)), true);
        view.setUint32(140, Number(BigInt.asUintN(32, stats.dev)), true);
    }

    /** Puts the names of a folder at `at`, each as Linux's `struct linux_dirent64` has it, as many as fit, and removes them from `names`. */
    giveNames(names, at, size) {
        const view = new DataView(this.#memory.buffer, Number(at), Number(size));
        let end = 0;
        while (names.length > 0) {
            const name = names[0];
            const length = (19 + name.length + 8) & ~7; // what is before the name, the name, at least one zero, up to a whole word
            if (end + length > view.byteLength) break;
            this.part(at, size).fill(0, end, end + length);
            view.setBigUint64(end, 1n, true); // an i-number, which nobody asks for
            view.setUint16(end + 16, length, true);
            this.part(at, size).set(name, end + 19);
            names.shift();
            end += length;
        }
        if (end === 0 && names.length > 0) throw new HostError('EINVAL');
        return end;
    }

    /** Puts a clock's time at `at`, as `struct timespec` has it. */
    giveClock(nanoseconds, at) {
        this.all.fill(0, Number(at), Number(at) + 16);
        this.#giveTime(new DataView(this.#memory.buffer, Number(at), 16), 0, nanoseconds);
    }

    #giveTime(view, at, nanoseconds) {
        const rest = BigInt.asUintN(64, nanoseconds % 1000000000n + 1000000000n) % 1000000000n;
        view.setBigInt64(at, (nanoseconds - rest) / 1000000000n, true);
        view.setUint32(at + 8, Number(rest), true);
    }

    /** The number of seconds and nanoseconds at `at`, or undefined if a time is to stay as it is. */
    time(at) {
        const view = new DataView(this.#memory.buffer, Number(at), 16);
        const nanoseconds = view.getBigInt64(8, true);
        return nanoseconds >= 1000000000n ? undefined : Number(view.getBigInt64(0, true)) + Number(nanoseconds) / 1e9;
    }
}

/** Returns what a call gives: its number, or the negative number of the host's error. */
function tried(call) {
    try {
        return BigInt(call() ?? 0);
    } catch (error) {
        if (error instanceof Ended || typeof error?.code !== 'string') throw error;
        return BigInt(-(ERRORS[error.code] ?? ERRORS.EIO));
    }
}

/** Returns a call of a host, which may not have it. */
function known(call) {
    if (call === undefined) throw new HostError('ENOSYS');
    return call;
}

/** Returns the functions that page/host.c imports, over a host. */
function calls(memory, words, env, host) {
    const names = Object.keys(env);
    return {
        arg_count: () => BigInt(words.length),
        arg: (index, to, size) => memory.give(words[Number(index)], to, size),
        env(name, to, size) {
            const value = env[text.decode(memory.path(name))];
            return memory.give(value === undefined ? undefined : utf8.encode(value), to, size);
        },
        env_at(index, to, size) {
            const name = names[Number(index)];
            return memory.give(name === undefined ? undefined : utf8.encode(`${name}=${env[name]}`), to, size);
        },
        open: (path, flags, mode) => tried(() => host.open(memory.path(path), flags, mode)),
        read: (descriptor, to, size) => tried(() => host.read(descriptor, memory.part(to, size))),
        write: (descriptor, from, size) => tried(() => host.write(descriptor, memory.part(from, size))),
        close: (descriptor) => tried(() => host.close(descriptor)),
        stats: (descriptor, to) => tried(() => memory.giveStats(host.stats(descriptor), to)),
        stats_at: (path, follows, to) => tried(() => memory.giveStats(host.statsAt(memory.path(path), follows !== 0), to)),
        truncate: (descriptor, size) => tried(() => host.truncate(descriptor, Number(size))),
        seek: (descriptor, offset, from) => tried(() => host.seek(descriptor, Number(offset), from)),
        chmod: (descriptor, mode) => tried(() => host.chmod(descriptor, mode)),
        chown: (descriptor, user, group) => tried(() => host.chown(descriptor, user, group)),
        times: (descriptor, at) => tried(() => host.times(descriptor, memory.time(at), memory.time(at + 16n))),
        sync: (descriptor) => tried(() => host.sync(descriptor)),
        rename: (from, to) => tried(() => host.rename(memory.path(from), memory.path(to))),
        unlink: (path) => tried(() => host.unlink(memory.path(path))),
        mkdir: (path, mode) => tried(() => known(host.mkdir).call(host, memory.path(path), mode)),
        open_folder: (path) => tried(() => known(host.openFolder).call(host, memory.path(path))),
        entries: (descriptor, to, size) => tried(() => memory.giveNames(known(host.names).call(host, descriptor), to, size)),
        readlink: (path, to, size) => tried(() => memory.give(host.readlink(memory.path(path)).subarray(0, Number(size)), to, size)),
        isatty: (descriptor) => (host.isatty(descriptor) ? 1 : 0),
        clock(which, to) {
            memory.giveClock(which === 0 ? BigInt(Date.now()) * 1000000n : BigInt(Math.floor(performance.now() * 1e6)), to);
        },
        exit(status) {
            throw new Ended(status);
        },
    };
}

/** Runs the program once over a host, such as `InMemory`, and returns its status and how many bytes of memory it had. */
export function start(module, words, env, host) {
    const memory = new Memory();
    const given = [NAME, ...words].map(bytesOf);
    let status;
    try {
        const instance = new WebAssembly.Instance(module, { host: calls(memory, given, env, host) });
        memory.use(instance.exports.memory);
        status = instance.exports.main(0, 0n);
    } catch (error) {
        status = error instanceof Ended ? error.status : stopped(error, memory.size !== 0, host);
    }
    return { status, memory: memory.size };
}

/** Says why a run was stopped, and returns its status. What the program can't have caused is thrown again. */
function stopped(error, hasBegun, host) {
    const isOfStack = error instanceof RangeError || error?.name === 'InternalError';
    if (!isOfStack && !(error instanceof WebAssembly.RuntimeError)) throw error;
    const line = hasBegun ? `the program was stopped: ${error.message}` : '12 NoMemory';
    try {
        host.write(2, utf8.encode(`${NAME}: ${line}\n`));
    } catch {
        // There is nobody to tell.
    }
    if (!hasBegun) return NO_MEMORY;
    return error.message.includes('unreachable') ? ABORTED : FAULTED;
}

/** Files in memory by their names, in folders that are there when a file is in them. */
export class Files extends Map {
    #made = 1;

    /** Adds a file, or replaces the one of this name, and returns it. The bytes aren't copied; a program that writes into the file changes them. */
    add(name, bytes = new Uint8Array(0), mode = 0o644) {
        const file = { bytes, size: bytes.length, mode, mtime: Date.now() / 1000, ino: ++this.#made };
        this.set(name, file);
        return file;
    }

    /** The bytes of a file, not copied; undefined if there is none of this name. */
    bytes(name) {
        const file = this.get(name);
        return file?.bytes.subarray(0, file.size);
    }

    /** True if a folder of this name is there. The empty name is that of the folder in which all files are. */
    hasFolder(name) {
        if (name === '') return true;
        for (const known of this.keys()) if (known.startsWith(`${name}/`)) return true;
        return false;
    }
}

/** Returns a path without `.`, `..` and more than one slash. All files are in one folder, also those whose path begins with a slash. */
function plain(path) {
    const parts = [];
    for (const part of text.decode(path).split('/')) {
        if (part === '..') parts.pop();
        else if (part !== '' && part !== '.') parts.push(part);
    }
    return parts.join('/');
}

/** Bytes that were printed, in the order in which they came. */
class Output {
    #parts = [];
    #size = 0;

    add(bytes) {
        this.#parts.push(bytes);
        this.#size += bytes.length;
    }

    joined() {
        if (this.#parts.length === 1) return this.#parts[0];
        const all = new Uint8Array(this.#size);
        let at = 0;
        for (const part of this.#parts) {
            all.set(part, at);
            at += part.length;
        }
        return all;
    }
}

/** A host whose files are in memory. */
class InMemory {
    #files;
    #input;
    #read = 0;
    #write;
    #signal;
    #open = new Map();
    #next = 3;

    constructor(files, { stdin = new Uint8Array(0), write, signal }) {
        this.#files = files;
        this.#input = bytesOf(stdin);
        this.#write = write;
        this.#signal = signal;
    }

    open(path, flags, mode) {
        const name = plain(path);
        let file = this.#files.get(name);
        if (file === undefined && this.#files.hasFolder(name)) {
            if (flags & (FLAGS.WRITE | FLAGS.UPDATE | FLAGS.CREATE)) throw new HostError('EISDIR');
            return this.#opened({ folder: name });
        }
        if (file !== undefined && flags & FLAGS.CREATE && flags & FLAGS.EXCLUSIVE) throw new HostError('EEXIST');
        if (file === undefined) {
            if (!(flags & FLAGS.CREATE)) throw new HostError('ENOENT');
            this.#expectFolderOf(name);
            file = this.#files.add(name, undefined, mode & 0o777 & ~UMASK);
        } else if (flags & FLAGS.TRUNCATE) {
            setSize(file, 0);
        }
        return this.#opened({ file, at: 0, appends: (flags & FLAGS.APPEND) !== 0 });
    }

    #opened(what) {
        this.#open.set(this.#next, what);
        return this.#next++;
    }

    #expectFolderOf(name) {
        const folder = name.slice(0, Math.max(name.lastIndexOf('/'), 0));
        if (this.#files.has(folder)) throw new HostError('ENOTDIR');
        if (!this.#files.hasFolder(folder)) throw new HostError('ENOENT');
    }

    #at(descriptor) {
        const open = this.#open.get(descriptor);
        if (open === undefined) throw new HostError('EBADF');
        return open;
    }

    #fileAt(descriptor) {
        const { file } = this.#at(descriptor);
        if (file === undefined) throw new HostError('EISDIR');
        return file;
    }

    #goOn() {
        if (this.#signal?.aborted) throw new Ended(INTERRUPTED);
    }

    read(descriptor, into) {
        this.#goOn();
        if (descriptor === 0) {
            const part = this.#input.subarray(this.#read, this.#read + into.length);
            this.#read += part.length;
            into.set(part);
            return part.length;
        }
        const file = this.#fileAt(descriptor);
        const open = this.#at(descriptor);
        const part = file.bytes.subarray(open.at, Math.max(open.at, Math.min(open.at + into.length, file.size)));
        into.set(part);
        open.at += part.length;
        return part.length;
    }

    write(descriptor, bytes) {
        this.#goOn();
        if (descriptor === 1 || descriptor === 2) {
            this.#write(descriptor, bytes.slice());
            return bytes.length;
        }
        const file = this.#fileAt(descriptor);
        const open = this.#at(descriptor);
        if (open.appends) open.at = file.size;
        put(file, open.at, bytes);
        open.at += bytes.length;
        return bytes.length;
    }

    close(descriptor) {
        this.#at(descriptor);
        this.#open.delete(descriptor);
    }

    stats(descriptor) {
        if (descriptor < 3) return statsOf({ mode: KINDS.PIPE | 0o600, size: 0, mtime: 0, ino: 0 });
        const { file } = this.#at(descriptor);
        return file === undefined ? statsOfFolder() : statsOfFile(file);
    }

    statsAt(path) {
        const name = plain(path);
        const file = this.#files.get(name);
        if (file !== undefined) return statsOfFile(file);
        if (!this.#files.hasFolder(name)) throw new HostError('ENOENT');
        return statsOfFolder();
    }

    truncate(descriptor, size) {
        setSize(this.#fileAt(descriptor), size);
    }

    seek(descriptor, offset, from) {
        if (descriptor < 3) throw new HostError('ESPIPE');
        const open = this.#at(descriptor);
        open.at = sought(offset, from, open.at, this.#fileAt(descriptor).size);
        return open.at;
    }

    chmod(descriptor, mode) {
        this.#fileAt(descriptor).mode = mode & 0o7777;
    }

    chown() {
        // There is one user.
    }

    times(descriptor, _, modified) {
        if (modified !== undefined) this.#fileAt(descriptor).mtime = modified;
    }

    sync() {
        // There is no disk.
    }

    rename(from, to) {
        const name = plain(to);
        const file = this.#files.get(plain(from));
        if (file === undefined) throw new HostError('ENOENT');
        if (!this.#files.has(name) && this.#files.hasFolder(name)) throw new HostError('EISDIR');
        this.#expectFolderOf(name);
        this.#files.delete(plain(from));
        this.#files.set(name, file);
    }

    unlink(path) {
        if (!this.#files.delete(plain(path))) throw new HostError('ENOENT');
    }

    readlink(path) {
        this.statsAt(path);
        throw new HostError('EINVAL'); // There are no links.
    }

    isatty() {
        return false;
    }
}

/** Returns as many bytes of zeros, if there is the memory. */
function zeros(size) {
    try {
        return new Uint8Array(size);
    } catch {
        throw new HostError('ENOSPC');
    }
}

/** Writes bytes into a file. An empty file gets just these, and one that grows has room for half as many again. */
function put(file, at, bytes) {
    const end = at + bytes.length;
    if (end > file.bytes.length) {
        const room = zeros(file.size === 0 ? end : Math.max(end, Math.floor(file.size * 1.5)));
        room.set(file.bytes.subarray(0, file.size));
        file.bytes = room;
    } else if (at > file.size) {
        file.bytes.fill(0, file.size, at);
    }
    file.bytes.set(bytes, at);
    file.size = Math.max(file.size, end);
    file.mtime = Date.now() / 1000;
}

/** Makes a file longer or shorter; what is new is zero. An empty file gives back its bytes. */
function setSize(file, size) {
    if (size === 0) {
        file.bytes = zeros(0);
    } else if (size > file.bytes.length) {
        const room = zeros(size);
        room.set(file.bytes.subarray(0, file.size));
        file.bytes = room;
    } else if (size > file.size) {
        file.bytes.fill(0, file.size, size);
    }
    file.size = size;
    file.mtime = Date.now() / 1000;
}

/** Returns what Node's `fs.Stats` have, from a file in memory. */
function statsOf({ mode, size, mtime, ino }) {
    const changed = BigInt(Math.floor(mtime * 1e9));
    return {
        mode: BigInt(mode), size: BigInt(size), blocks: BigInt(Math.ceil(size / 512)), nlink: 1n, uid: 0n, gid: 0n, ino: BigInt(ino), dev: 1n,
        atimeNs: changed, ctimeNs: changed, mtimeNs: changed,
    };
}

const statsOfFile = (file) => statsOf({ ...file, mode: KINDS.FILE | file.mode });
const statsOfFolder = () => statsOf({ mode: KINDS.DIRECTORY | 0o755, size: 0, mtime: 0, ino: 1 });

/** Runs the program once over files in memory. */
export function run(module, words, files, options = {}) {
    const printed = [new Output(), new Output()];
    const write = options.write ?? ((stream, bytes) => printed[stream - 1].add(bytes));
    const host = new InMemory(files, { ...options, write });
    const { status, memory } = start(module, words, options.env ?? {}, host);
    return { status, output: printed[0].joined(), error: printed[1].joined(), memory };
}

// Under Node this file is also a command, and by a link to it too.
if (globalThis.process?.versions?.node) import('./node.mjs');
