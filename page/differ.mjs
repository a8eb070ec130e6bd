// Compares the program for WebAssembly with the native one. Both run the same command lines over the same images, and must end with the same status, print the
// same bytes and leave the same files. First come all command lines on each image as it is, sound or broken; the others are on images with changed bytes.
// Usage: node page/differ.mjs NATIVE [RUNS [SEED]], after `make page`. It prints each run that differs, and ends with 'N the same, N differ'.
import { spawnSync } from 'node:child_process';
import { createHash } from 'node:crypto';
import fs from 'node:fs';
import os from 'node:os';
import path from 'node:path';
import { Files, run } from './unixvol.mjs';

const top = path.dirname(import.meta.dirname ?? path.dirname(new URL(import.meta.url).pathname));
const native = path.resolve(process.argv[2] ?? '');
const runs = Number(process.argv[3] ?? 2000);
const seed = Number(process.argv[4] ?? 1);
const module = new WebAssembly.Module(fs.readFileSync(path.join(top, 'page/out/unixvol.wasm')));
const room = fs.mkdtempSync(path.join(os.tmpdir(), 'differ-'));
const folder = path.join(room, 'files');
process.umask(0o022); // as that of files in memory

/** The time of changes, and before it that of the files that a run is given, in seconds since the beginning of 1970. */
const NOW = '1000000000';
const BEFORE = 900000000;

/** Times of files from then on are those of the run, and are the same to each other. */
const BEGUN = Date.now() / 1000 - 60;

/** The commands that show an image of an edition. */
const looks = (edition, image) => [
    ['cat', edition, image, '2'], ['cat', edition, image, '/etc/passwd'], ['get', edition, image, '/etc/motd'],
    ['get', '-p', edition, image, '-o', '.', '/etc/passwd'], ['ls', '-lR', edition, image], ['ls', '-R', '--json', edition, image],
    ['ls', '--slots', edition, image, '/'], ['ls', '-ld', edition, image, '/etc'], ['find', edition, image], ['sums', edition, image],
    ['sums', '--json', edition, image], ['export', edition, image], ['export', '--lost', edition, image],
    ['export', '--status', edition, image, '/etc'], ['map', edition, image], ['map', '--svg', edition, image], ['df', edition, image],
    ['df', '--json', edition, image], ['super', edition, image], ['super', '--json', edition, image], ['free', edition, image],
    ['free', '--json', edition, image], ['inode', edition, image, '2'], ['inode', '--json', edition, image, '3'], ['inode', edition, image, '/etc'],
    ['block', edition, image, '4'], ['block', edition, image, '14'], ['block', '--json', edition, image, '14'], ['find', '--json', edition, image],
    ['map', '--json', edition, image], ['check', edition, image], ['check', '--json', edition, image],
    ['check', '--status', edition, image], ['icheck', edition, image, '1'], ['icheck', edition, image, '4'], ['dcheck', edition, image, '2'],
    ['ncheck', edition, image, '3'], ['identify', image], ['identify', image, image], ['dump', edition, image, '1'],
    ['dump', edition, image, '-i', '/etc/motd'], ['diff', edition, image, `sound.v${edition}`, '--fields'], ['export', '--cut', edition, image],
    ['export', '--cut', '--damaged', edition, image],
];

/** The commands that change one. */
const changes = (edition, image) => [
    ['put', edition, image, '/new', 'text', NOW], ['put', '-p', edition, image, '/new', 'text', NOW],
    ['put', edition, image, '-t', '/', 'text', 'script', NOW], ['mkdir', edition, image, '/made', NOW],
    ['mkdir', '-p', edition, image, '/made/in/it', NOW], ['rm', edition, image, '/etc/motd', NOW], ['rm', '-r', edition, image, '/etc', NOW],
    ['rmdir', edition, image, '/etc', NOW], ['mv', edition, image, '/etc', '/moved', NOW], ['ln', edition, image, '/etc/motd', '/more', NOW],
    ['chmod', edition, image, '/etc', '700', NOW], ['chown', edition, image, '/etc', '3', '4', NOW], ['touch', edition, image, '/etc/new', NOW],
    ['mknod', edition, image, '/etc/tty', 'c', '3', '5', '0622', NOW],
    ['salvage', edition, image], ['play', edition, image, 'script'], ['import', edition, image, '/', NOW],
    ['migrate', image, 'new.v7', '400', '20', NOW],
];

/** Those that need no image, or a pack with volumes at its blocks 9 and 30. */
const others = [
    ['identify', 'pack'], ['ls', '-lR', '7', 'pack', '--at', '9'], ['cat', '6', 'pack', '/etc/motd', '--at', '30'], ['check', '7', 'pack', '--at', '8'],
    ['check', '7', 'pack', '--at', '9000'], ['put', '7', 'pack', '/new', 'text', NOW, '--at', '9'], ['rm', '-r', '6', 'pack', '/etc', NOW, '--at', '30'],
    ['mkfs', '7', 'made', '500', '20', '0', '0', NOW], ['mkfs', '6', 'made', 'rk05', '20', '1', '1', NOW],
    ['mkfs', '--new', '7', 'text', '500', '20', '0', '0', NOW], ['mkfs', '7', 'text', '300', '10', '0', '0', NOW], ['mkfs', '7', 'made', '2'],
    ['mkfs', '7', 'no/made', '300'], ['check', '7', 'missing'], ['check', '7', '.'], ['--explain', 'check', '7', 'missing'],
    ['identify', 'text', 'missing'], ['cat', '6', 'text', '1'], ['nothing'], [], ['--help'], ['--version'], ['check', '--help'],
];

/** Numbers that only the seed decides: xorshift. */
let state = (seed * 2654435761 + 1) >>> 0;
function number(below) {
    state ^= state << 13;
    state ^= state >>> 17;
    state ^= state << 5;
    return (state >>> 0) % below;
}
const one = (list) => list[number(list.length)];

const editionOf = (image) => (image.endsWith('6') ? '6' : '7');

/** Returns the files of all runs: samples, lessons, a text, a script, and the archive that `import` reads. */
function base() {
    const samples = path.join(top, 'samples');
    const lessons = fs.readdirSync(path.join(samples, 'lessons')).filter((name) => /\.v[67]$/.test(name));
    const images = ['hello.v6', 'linux_made.v7', ...lessons.sort().map((name) => path.join('lessons', name))];
    const files = new Map(images.map((name) => [path.basename(name), fs.readFileSync(path.join(samples, name))]));
    files.set('text', Buffer.from('some text\n'.repeat(700)));
    const filler = [9, 5, 3].map((blocks) => Buffer.alloc(512 * blocks, 'filler'));
    files.set('pack', Buffer.concat([filler[0], files.get('sound.v7'), filler[1], files.get('sound.v6'), filler[2]]));
    files.set('script', Buffer.from('1000 0 0 mkdir /made 755\n1000 3 5 create /f 644\n1000 0 0 link /f /made/g\n1000 0 0 unlink /f\n'));
    return files;
}

/** Returns a file with some bytes changed, most of them in the super-block or the i-list; now and then it is cut off. */
function mutated(bytes) {
    const changed = Buffer.from(bytes);
    for (let left = 1 + number(6); left > 0; left--) {
        const at = number(4) === 0 ? number(changed.length) : 512 + number(4096);
        changed[at % changed.length] = number(256);
    }
    return number(20) === 0 ? changed.subarray(0, number(changed.length)) : changed;
}

/** What was printed on a stream, by its size and checksum. Only the beginning is kept. */
class Printed {
    size = 0;
    begun = '';
    #sum = createHash('sha256');

    add(bytes) {
        if (this.size < 200) this.begun += Buffer.from(bytes).toString('latin1').slice(0, 200);
        this.size += bytes.length;
        this.#sum.update(bytes);
    }

    ended() {
        return `${this.size} bytes ${this.#sum.digest('hex').slice(0, 16)} ${JSON.stringify(this.begun.slice(0, 200))}`;
    }
}

/** Returns what was printed into a file. */
function printedIn(file) {
    const printed = new Printed();
    const piece = Buffer.alloc(1 << 20);
    const descriptor = fs.openSync(file);
    for (let size; (size = fs.readSync(descriptor, piece)) > 0;) printed.add(piece.subarray(0, size));
    fs.closeSync(descriptor);
    return printed.ended();
}

/** One line for a file that was left. */
function left(name, bytes, mode, mtime) {
    const sum = createHash('sha256').update(bytes).digest('hex').slice(0, 16);
    return `${name} ${(mode & 0o7777).toString(8)} ${mtime > BEGUN ? 'now' : Math.floor(mtime)} ${bytes.length} bytes ${sum}`;
}

/** Runs the native program, and returns the lines that tell what it did. */
function nativeRun(words, files, input) {
    fs.mkdirSync(folder);
    for (const [name, bytes] of files) {
        fs.writeFileSync(path.join(folder, name), bytes);
        fs.utimesSync(path.join(folder, name), BEFORE, BEFORE);
    }
    fs.writeFileSync(path.join(room, 'input'), input);
    const streams = [fs.openSync(path.join(room, 'input')), fs.openSync(path.join(room, 'output'), 'w'), fs.openSync(path.join(room, 'error'), 'w')];
    const { status, signal, error } = spawnSync(native, words, { cwd: folder, env: {}, stdio: streams });
    if (error) throw error;
    streams.forEach((descriptor) => fs.closeSync(descriptor));
    const lines = [`status ${status ?? signal}`, `output ${printedIn(path.join(room, 'output'))}`, `error ${printedIn(path.join(room, 'error'))}`];
    for (const name of fs.readdirSync(folder).sort()) {
        const { mode, mtimeMs } = fs.statSync(path.join(folder, name));
        lines.push(left(name, fs.readFileSync(path.join(folder, name)), mode, mtimeMs / 1000));
    }
    fs.rmSync(folder, { recursive: true });
    return lines;
}

/** Runs the module, and returns the same lines. */
function moduleRun(words, files, input) {
    const memory = new Files();
    for (const [name, bytes] of files) memory.add(name, new Uint8Array(bytes)).mtime = BEFORE;
    const printed = [new Printed(), new Printed()];
    const { status } = run(module, words, memory, { stdin: new Uint8Array(input), write: (stream, bytes) => printed[stream - 1].add(bytes) });
    const names = [...memory.keys()].sort();
    return [
        `status ${status}`, `output ${printed[0].ended()}`, `error ${printed[1].ended()}`,
        ...names.map((name) => left(name, memory.bytes(name), memory.get(name).mode, memory.get(name).mtime)),
    ];
}

let same = 0;
let differ = 0;

/** Compares one run of both, with these files. */
function compare(words, files, input) {
    const [wanted, found] = [nativeRun(words, files, input), moduleRun(words, files, input)];
    if (wanted.join('\n') === found.join('\n')) {
        same++;
        return;
    }
    differ++;
    const kept = fs.mkdtempSync(path.join(os.tmpdir(), 'differs-'));
    for (const [name, bytes] of files) fs.writeFileSync(path.join(kept, name), bytes);
    console.log(`differs: unixvol ${words.join(' ')} (in ${kept})`);
    for (const line of wanted) if (!found.includes(line)) console.log(`    native  ${line}`);
    for (const line of found) if (!wanted.includes(line)) console.log(`    module  ${line}`);
}

/** The files that a command line names. */
const named = (words, files) => [...files].filter(([name]) => words.includes(name));

function main() {
    const files = base();
    const images = [...files.keys()].filter((name) => /\.v[67]$/.test(name));
    const archive = spawnSync(native, ['export', '7', path.join(top, 'samples/linux_made.v7'), '/etc']).stdout;
    const plain = [...others, ...images.flatMap((image) => [...looks(editionOf(image), image), ...changes(editionOf(image), image)])];
    for (let at = 0; at < runs; at++) {
        if (at < plain.length) {
            compare(plain[at], named(plain[at], files), archive);
            continue;
        }
        const image = one(images);
        const words = one(number(2) === 0 ? looks(editionOf(image), image) : changes(editionOf(image), image));
        const changed = new Map(named(words, files));
        changed.set(image, mutated(files.get(image)));
        compare(words, changed, archive);
    }
    fs.rmSync(room, { recursive: true });
    console.log(`${same} the same, ${differ} differ, of seed ${seed}`);
    process.exitCode = differ === 0 ? 0 : 1;
}

main();
