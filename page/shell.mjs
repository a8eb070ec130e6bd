// The command line: all of `unixvol`, pipes and files, and as much of the usual tools as the lessons use.
import { od } from './dumps.mjs';
import { ask, runs, shellWords } from './engine.mjs';
import { note, poke, state, writeFile } from './shelf.mjs';

const text = new TextDecoder();
const utf8 = new TextEncoder();
const WORD = /\s*(?:(\||<|>)|((?:'[^']*'|"[^"]*"|\\.|[^\s'"\\|<>])+))/gy;

class Misread extends Error {}

const unquoted = (word) => word.replace(/'([^']*)'|"([^"]*)"|\\(.)/g, (_, one, two, three) => one ?? two ?? three);

/** Reads a line as a shell does: commands apart by `|`, with `<` and `>` before files. */
export function readLine(line) {
  const stages = [{ words: [] }];
  const trimmed = line.trim();
  let sign = null;
  let end = 0;
  for (const it of trimmed.matchAll(WORD)) {
    end = it.index + it[0].length;
    const stage = stages.at(-1);
    if (it[1] === '|') stages.push({ words: [] });
    else if (it[1]) sign = it[1];
    else if (sign) [stage[sign === '<' ? 'from' : 'into'], sign] = [unquoted(it[2]), null];
    else stage.words.push(unquoted(it[2]));
  }
  if (end !== trimmed.length || sign) throw new Misread('this line cannot be read: a quote or a name is missing');
  return stages;
}

async function readFile(name) {
  const known = [...state.images, ...state.files].find((it) => it.name === name);
  if (!known) throw new Misread(`${name}: no such file in this page`);
  return new Uint8Array(await (await ask('whole', { name })).blob.arrayBuffer());
}

/** Takes the options of a tool out of its words: `wanted` names those with a value. */
function options(words, wanted) {
  const found = {};
  const rest = [];
  for (let k = 0; k < words.length; k++) {
    const letter = words[k].startsWith('-') && words[k].length > 1 ? words[k].slice(1) : null;
    if (letter === null) rest.push(words[k]);
    else if (wanted.includes(letter[0])) (found[letter[0]] ??= []).push(letter.slice(1) || words[++k]);
    else for (const it of letter) found[it] = true;
  }
  return { found, rest };
}

const linesOf = (bytes) => text.decode(bytes).split('\n').slice(0, -1);
const joined = (lines) => utf8.encode(lines.map((it) => `${it}\n`).join(''));
const escapes = (word) => word.replace(/\\([0-7]{1,3}|n|t|\\)/g, (_, it) => ({ n: '\n', t: '\t', '\\': '\\' })[it] ?? String.fromCharCode(parseInt(it, 8)));
const latin = (word) => Uint8Array.from(word, (it) => it.charCodeAt(0));
const inputOf = async (name, input) => (name === undefined ? input : readFile(name));

/** Sets bytes of an image, as `dd conv=notrunc` does, or reads blocks. */
async function dd(words, input, line) {
  const given = Object.fromEntries(words.map((it) => it.split('=')));
  const size = Number(given.bs ?? 512);
  if (given.of !== undefined) {
    const image = state.images.find((it) => it.name === given.of);
    if (!image || !(given.conv ?? '').includes('notrunc')) throw new Misread('dd writes only into an image here, with conv=notrunc');
    await poke(image, size * Number(given.seek ?? 0), input, line);
    return new Uint8Array(0);
  }
  const bytes = await inputOf(given.if, input);
  const from = size * Number(given.skip ?? 0);
  return bytes.subarray(from, given.count === undefined ? undefined : from + size * Number(given.count));
}

async function odTool(words, input) {
  const { found, rest } = options(words, 'AtjN');
  const bytes = await inputOf(rest[0], input);
  const from = Number(found.j?.[0] ?? 0);
  const part = bytes.subarray(from, found.N ? from + Number(found.N[0]) : undefined);
  return utf8.encode(od(part, found.t?.[0] ?? 'o2', found.A?.[0] === 'd', from));
}

function grep(words, input) {
  const { found, rest } = options(words, 'e');
  const patterns = found.e ?? [rest.shift()];
  const chosen = linesOf(input).filter((line) => patterns.some((it) => line.includes(it)) !== Boolean(found.v));
  return joined(found.c ? [String(chosen.length)] : chosen);
}

async function head(words, input) {
  const { found, rest } = options(words, 'nc');
  const bytes = await inputOf(rest[0], input);
  return found.c ? bytes.subarray(0, Number(found.c[0])) : joined(linesOf(bytes).slice(0, Number(found.n?.[0] ?? 10)));
}

/** The names of an archive's members. */
async function tar(words, input) {
  const { found, rest } = options(words, 'f');
  const bytes = await inputOf(found.f?.[0] ?? rest[0], input);
  const field = (at, length) => text.decode(bytes.subarray(at, at + length)).replace(/\0.*$/s, '');
  const names = [];
  for (let at = 0; bytes[at]; at += 512 + 512 * Math.ceil(parseInt(field(at + 124, 12), 8) / 512)) names.push([field(at + 345, 155),
    field(at, 100)].filter(Boolean).join('/'));
  return joined(names);
}

const TOOLS = {
  dd,
  od: odTool,
  grep,
  head,
  tar,
  echo: (words) => utf8.encode(`${words.join(' ')}\n`),
  printf: (words) => latin(escapes(words[0] ?? '')),
  seq: (words) => joined(Array.from({ length: Number(words[0]) }, (_, k) => String(k + 1))),
  wc: (_, input) => joined([String(input.length)]),
  tail: (words, input) => joined(linesOf(input).slice(-Number(options(words, 'n').found.n?.[0] ?? 10))),
  sed(words, input) {
    const line = /^(\d+)(?:,(\d+))?p$/.exec(words.at(-1));
    if (!line || words[0] !== '-n') throw new Misread('sed knows only -n and lines such as 3p or 3,6p here');
    return joined(linesOf(input).slice(Number(line[1]) - 1, Number(line[2] ?? line[1])));
  },
  async cp(words) {
    await writeFile(words[1], await readFile(words[0]));
    return new Uint8Array(0);
  },
};

const NONE = new Uint8Array(0);

async function stage({ words, from }, input, line, isPlain) {
  const given = from === undefined ? input : await readFile(from);
  if (Object.hasOwn(TOOLS, words[0])) return { status: 0, output: await TOOLS[words[0]](words.slice(1), given, line), error: '' };
  const args = words[0] === 'unixvol' ? words.slice(1) : words;
  const ended = await runs(args, { stdin: given, from, isPlain });
  await note(ended.changes, `unixvol ${shellWords(args)}`);
  return ended;
}

/** Runs a line. Returns its output as text and bytes, its errors and its status. If `isPlain`, faults have no second line that explains them. */
export async function runLine(line, { isPlain = false } = {}) {
  let ended = { status: 0, output: NONE, error: '' };
  let error = '';
  try {
    for (const it of readLine(line)) {
      ended = await stage(it, ended.output ?? NONE, line, isPlain);
      error += ended.error;
      if (it.into === undefined) continue;
      await writeFile(it.into, ended.output);
      ended = { ...ended, output: NONE };
    }
  } catch (fault) {
    if (!(fault instanceof Misread)) throw fault;
    return { status: 2, text: '', output: NONE, error: `${fault.message}\n` };
  }
  return { ...ended, error, text: text.decode(ended.output) };
}
