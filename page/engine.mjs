// The worker from the page's side: one command after another, progress, stopping, and the log of all commands.
import { $, Stopped, button, el } from './dom.mjs';

const SHOWN = 400; // milliseconds after which a running command is shown
export const log = [];
let module = null;
let worker = null;
let waiting = new Map();
let next = 1;
let refill = async () => {};

/** Starts the worker with the module that the page holds. `again` gives a new worker its files. */
export async function start(bytes, again) {
  module = await WebAssembly.compile(bytes);
  refill = again;
  begin();
}

function begin() {
  const source = $('worker').textContent;
  worker = new Worker(URL.createObjectURL(new Blob([source], { type: 'text/javascript' })));
  worker.onmessage = ({ data }) => hear(data);
  worker.onerror = (event) => fail(new Error(event.message || 'the worker failed'));
  ask('start', { module });
}

function hear(data) {
  const it = waiting.get(data.id);
  if (!it) return;
  if ('progress' in data) {
    it.progress = data.progress;
    return;
  }
  waiting.delete(data.id);
  if (data.failed !== undefined) it.refuse(new Error(data.failed));
  else it.done(data);
  show();
}

function fail(fault) {
  for (const it of waiting.values()) it.refuse(fault);
  waiting = new Map();
  show();
}

/** Sends the worker a message; returns its answer. */
export function ask(what, message = {}, label = '') {
  return new Promise((done, refuse) => {
    const id = next++;
    waiting.set(id, { done, refuse, label, begun: performance.now(), progress: 0 });
    worker.postMessage({ id, what, ...message });
    setTimeout(show, SHOWN + 20);
  });
}

/** Ends what runs, and begins with a new worker that has the same files. This also gives back the old one's memory. */
export async function renew() {
  worker.terminate();
  fail(new Stopped('stopped'));
  begin();
  await refill();
}

/** Returns words as a shell takes them. */
export const shellWords = (words) => words.map((it) => (/^[\w./:+,@%=-]+$/.test(it) ? it : `'${it.replaceAll("'", "'\\''")}'`)).join(' ');

/** Runs a command of `unixvol`. `into` names the file that its output is saved as, and `from` the one that it reads. If `isPlain`, faults have no second
  line that explains them. */
export async function runs(args, { stdin, limit, asBlob, into, from, isPlain } = {}) {
  const line = `unixvol ${shellWords(args)}${from ? ` < ${shellWords([from])}` : ''}${into ? ` > ${shellWords([into])}` : ''}`;
  const entry = { line, status: 'runs', ms: 0 };
  log.push(entry);
  try {
    const ended = await ask('run', { args, stdin, limit, asBlob, isPlain }, line);
    Object.assign(entry, { status: ended.cut ? 'cut off' : ended.status, ms: ended.ms });
    ended.text = ended.output && new TextDecoder().decode(ended.output);
    return ended;
  } catch (fault) {
    entry.status = fault instanceof Stopped ? 'stopped' : 'failed';
    throw fault;
  } finally {
    showLast(entry);
  }
}

/** Runs a command whose output is short, and returns what it printed. */
export const unixvol = (...args) => runs(args.map(String));

function showLast({ line, status, ms }) {
  $('last').textContent = line;
  $('ended').textContent = `status ${status}, ${ms.toFixed(0)} ms`;
}

/** Shows what runs, if it takes long, with a button that stops it. */
function show() {
  const box = $('busy');
  const first = [...waiting.values()][0];
  const isLong = first && performance.now() - first.begun >= SHOWN;
  box.hidden = !isLong;
  if (!isLong) return;
  const seconds = Math.floor((performance.now() - first.begun) / 1000);
  const made = first.progress ? `, ${(first.progress / 1048576).toFixed(1)} MB of output` : '';
  if (!box.firstChild) box.append(el('progress', { 'aria-label': 'a command runs' }), el('span'), button('Stop', renew, { id: 'stop' }));
  box.children[1].textContent = `${first.label || 'reading'}: ${seconds} s${made}`;
  clearTimeout(show.again);
  show.again = setTimeout(show, 250);
}
