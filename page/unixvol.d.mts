/** A file in memory. */
export interface File {
    /** Its bytes, and room for more: those of the file are the first `size`. */
    bytes: Uint8Array;
    /** How many bytes it has. */
    size: number;
    /** Its permissions, as 0o644. */
    mode: number;
    /** The time of its last modification, in seconds since the beginning of 1970. */
    mtime: number;
    /** A number that no other file of these has had. */
    ino: number;
}

/** Files in memory by their names, in folders that exist while a file is in them. `delete` removes one. */
export class Files extends Map<string, File> {
    /** Adds a file, or replaces the one of this name, and returns it. The bytes aren't copied; a program that writes into the file changes them. */
    add(name: string, bytes?: Uint8Array, mode?: number): File;
    /** The bytes of a file, not copied; undefined if there is none of this name. */
    bytes(name: string): Uint8Array | undefined;
    /** True if a folder of this name exists. The empty name is that of the folder that has all files. */
    hasFolder(name: string): boolean;
}

/** What a run is given. */
export interface Options {
    /** What it reads from standard input. It is nothing, if it isn't given. */
    stdin?: string | Uint8Array;
    /** Its environment. The program knows UNIXVOL_EXPLAIN, UNIXVOL_PROGRESS, NO_COLOR, COLUMNS and TMPDIR. It is empty, if it isn't given. */
    env?: Record<string, string>;
    /**
     * Gets what is printed as it comes, with 1 for standard output and 2 for standard error, in arrays that it may keep. `output` and `error` stay empty then.
     * An error that it throws ends the run.
     */
    write?(stream: 1 | 2, bytes: Uint8Array): void;
    /** Ends the run, with status 130, at the next read or write after it was aborted, as by `write`. What was written stays, a new file `.unixvol-0` too. */
    signal?: { readonly aborted: boolean };
}

/** What a run left, besides the files. */
export interface Result {
    /**
     * The status of the program. It is 4 also if there is no memory to start it; 130 if `signal` ended it; 134 or 139 if it was stopped, as at the end of its
     * stack. All but 130 come with a line on standard error.
     */
    status: number;
    /** What it printed on standard output. */
    output: Uint8Array;
    /** What it printed on standard error. */
    error: Uint8Array;
    /** How many bytes of memory it had in the end, beside the files. It is given back. */
    memory: number;
}

/** Runs the program once over files in memory: run(module, ['check', '7', 'disk.img'], files). Each run is a new instance of the module. */
export function run(module: WebAssembly.Module, words: readonly (string | Uint8Array)[], files: Files, options?: Options): Result;

/** Linux's flags of `open`, which the program uses. */
export const FLAGS: Readonly<Record<'WRITE' | 'UPDATE' | 'CREATE' | 'EXCLUSIVE' | 'TRUNCATE' | 'APPEND', number>>;

/** An error of a host, with the name that Linux has for its number, as ENOENT. Node's errors have that too. */
export class HostError extends Error {
    constructor(code: string);
    readonly code: string;
}

/** Returns the offset that `Host.seek` leads to, in a file of `size` bytes that is read and written at `at`. */
export function sought(offset: number, from: number, at: number, size: number): number;

/** What a host knows of a file: a part of Node's `fs.BigIntStats`. The kind of the file is in its mode. */
export type Stats = Record<'mode' | 'size' | 'blocks' | 'nlink' | 'uid' | 'gid' | 'ino' | 'dev' | 'atimeNs' | 'ctimeNs' | 'mtimeNs', bigint>;

/**
 * A system for the program. A call that fails throws an error with a `code`. Descriptors 0, 1 and 2 are open from the start. Paths are bytes. A host may have no
 * `mkdir`, `openFolder` and `names`: then commands that read or make folders end with status 3.
 */
export interface Host {
    open(path: Uint8Array, flags: number, mode: number): number;
    read(descriptor: number, into: Uint8Array): number;
    /** `bytes` is the memory of the program: what is kept of it must be copied. */
    write(descriptor: number, bytes: Uint8Array): number;
    close(descriptor: number): void;
    stats(descriptor: number): Stats;
    statsAt(path: Uint8Array, follows: boolean): Stats;
    truncate(descriptor: number, size: number): void;
    /** Moves to an offset from the beginning (`from` is 0), from where the file is read and written now (1) or from its end (2), and returns where that is. */
    seek(descriptor: number, offset: number, from: number): number;
    chmod(descriptor: number, mode: number): void;
    /** -1 leaves the user or the group as it is. */
    chown(descriptor: number, user: number, group: number): void;
    /** In seconds since the beginning of 1970; undefined leaves a time as it is. */
    times(descriptor: number, accessed: number | undefined, modified: number | undefined): void;
    sync(descriptor: number): void;
    rename(from: Uint8Array, to: Uint8Array): void;
    unlink(path: Uint8Array): void;
    mkdir?(path: Uint8Array, mode: number): void;
    /** Opens a folder, and returns a descriptor for `names` and `close`. */
    openFolder?(path: Uint8Array): number;
    /** Returns the names in an open folder that weren't read yet. What is read is removed from this array. */
    names?(descriptor: number): Uint8Array[];
    readlink(path: Uint8Array): Uint8Array;
    isatty(descriptor: number): boolean;
}

/** Runs the program once over another host. */
export function start(
    module: WebAssembly.Module,
    words: readonly (string | Uint8Array)[],
    env: Readonly<Record<string, string | undefined>>,
    host: Host,
): Pick<Result, 'status' | 'memory'>;
