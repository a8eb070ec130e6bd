#!/usr/bin/env node
// The archive that the page makes of a dropped folder, imported by the program for WebAssembly.
// Usage: folders.mjs FOLDER, which tools/page.sh built. It prints a line for each row that fails, and ends with 'N passed, N failed'.
import fs from 'node:fs';
import path from 'node:path';
import { archiveOf } from '../../page/folders.mjs';

const built = path.resolve(process.argv[2]);
const { Files, run } = await import(`${built}/unixvol.mjs`);
const module = new WebAssembly.Module(fs.readFileSync(`${built}/unixvol.wasm`));
const count = { passed: 0, failed: 0 };

function has(label, wanted, got) {
  count[wanted === got ? 'passed' : 'failed'] += 1;
  if (wanted !== got) console.log(`failed: ${label}\n    wanted ${JSON.stringify(wanted)}\n    came   ${JSON.stringify(got)}`);
}

/** A file and a folder as a browser gives them: what is in a folder comes a part at a time. */
const file = (name, bytes, lastModified) => ({ name, isDirectory: false, file: (done) => done(Object.assign(new Blob([bytes]), { lastModified })) });
const folder = (name, kids) => ({ name, isDirectory: true, createReader: () => {
  const left = [...kids];
  return { readEntries: (done) => done(left.splice(0, 2)) };
} });

const text = new TextDecoder();
const files = new Files();
const ran = (args, stdin) => {
  const { status, output, error } = run(module, args, files, { stdin });
  return `${status} ${text.decode(output)}${text.decode(error)}`;
};
const imports = async (...entries) => ran(['import', '7', 'disk.img', '/', '1000'], new Uint8Array(await (await archiveOf(entries)).arrayBuffer()));

const deep = Array.from({ length: 12 }).reduce((below, _, k) => folder(`directory_${k}`, [below]), file('end', 'far down\n', 7000));
const path12 = Array.from({ length: 12 }, (_, k) => `/directory_${11 - k}`).join('');

has('mkfs', '0 ', ran(['mkfs', '--new', '7', 'disk.img', '400', '20', '1000']));
has('a folder', '0 ', await imports(folder('src', [file('b', 'b\n', 5500), file('a', 'x'.repeat(1000), 3000), folder('none', []), deep]), file('alone', '', 1000)));
has('its names', `0 /alone\n/src\n/src/a\n/src/b\n`, ran(['find', '7', 'disk.img', '/']).split('\n').filter((it) => !/directory|none/.test(it)).join('\n'));
has('an empty folder', true, ran(['ls', '-l', '7', 'disk.img', '/src']).includes(' none\n'));
has('a file', '0 b\n', ran(['get', '7', 'disk.img', '/src/b']));
has('bytes that fill no block', `0 ${'x'.repeat(1000)}`, ran(['get', '7', 'disk.img', '/src/a']));
has('a path above 100 bytes', '0 far down\n', ran(['get', '7', 'disk.img', `/src${path12}/end`]));
has('the time of a file', true, ran(['ls', '-l', '7', 'disk.img', '/src/b']).includes('1970-01-01 00:00:05'));
has('what is there is not replaced', '1 unixvol: 17 Exists: /alone\n', await imports(file('alone', 'other\n', 1000)));
has('a name of 15 bytes', true, (await imports(file('fifteen_bytes_1', '', 0))).startsWith('1 unixvol: fifteen_bytes_1: '));
console.log(`${count.passed} passed, ${count.failed} failed`);
process.exit(count.failed ? 1 : 0);
