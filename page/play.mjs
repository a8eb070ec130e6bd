// The tab that plays two scripts of calls on the volume: what each line came to, and what each call changed, field by field.
import { button, counted, doing, el, fill, longTable } from './dom.mjs';
import { ask, runs } from './engine.mjs';
import { at, copyOf, go, run, state, undo, writeFile } from './shelf.mjs';
import { chooser, printed } from './views.mjs';

const NAMES = ['first.script', 'second.script'];
const FORMS = ['create PATH PERM', 'mkdir PATH PERM', 'link FROM TO', 'unlink PATH', 'rmdir PATH', 'write PATH OFFSET HEX', 'truncate PATH LENGTH',
  'chmod PATH PERM', 'chown PATH UID GID', 'times PATH ATIME MTIME', 'mknod PATH PERM KIND MAJOR MINOR', 'stat PATH', 'read PATH OFFSET LEN', 'list PATH'];
const texts = ['1000 0 0 mkdir /made 755\n1001 3 5 stat /\n1002 0 0 create /made/note 644\n1003 0 0 write /made/note 0 48692e0a\n',
  '1000 0 0 create /other 600\n1001 0 0 link /other /more\n1002 0 0 rmdir /none\n1003 0 0 unlink /other\n'];

const linesOf = (text) => text.split('\n').slice(0, text.endsWith('\n') ? -1 : undefined);
const RESULT = /^(\d+)\.(\d+) (.*)$/;

/** Reads what `play --journal` prints: the result of each line of a script, the counts, and the calls in the order in which they were made. */
function readPlayed(text) {
  const all = linesOf(text);
  const results = all.map((it) => RESULT.exec(it)).filter(Boolean).map(([, script, line, came]) => ({ script: Number(script), line: Number(line), came }));
  return { results, counts: all.filter((it) => /^[a-z]+ \d+$/.test(it)), calls: all.filter((it) => /^\d+ \d+ \d+ /.test(it)) };
}

/** Writes the scripts into files of the page, and plays them on the volume. */
async function plays(image) {
  const scripts = texts.map((it) => (it === '' || it.endsWith('\n') ? it : `${it}\n`));
  for (const [k, name] of NAMES.entries()) await writeFile(name, new TextEncoder().encode(scripts[k]));
  const before = image.done.length;
  const ended = await run(['play', '--journal', ...at(image), ...NAMES]);
  image.played = { ...readPlayed(ended.text), scripts, before, change: image.done[before], text: ended.text, error: ended.error };
  await go('play');
}

/** Tells what one call of the journal changed: the calls before it, and then it too, are played on copies of the volume as it was before them all. */
async function changeOf(image, number) {
  const { calls, before } = image.played;
  const [older, newer] = [await copyOf(image, before, 'before'), await copyOf(image, before, 'after')];
  const script = `${older}.script`;
  const playsFirst = async (count, name) => {
    await ask('add', { name: script, blob: new Blob([calls.slice(0, count).map((it) => `${it}\n`).join('')]) });
    const ended = await runs(['play', image.edition, name, script]);
    if (ended.status) throw new Error(ended.error);
  };
  try {
    if (number > 1) await playsFirst(number - 1, older);
    await playsFirst(number, newer);
    return await runs(['diff', image.edition, older, newer, '--fields']);
  } finally {
    for (const name of [older, newer, script]) await ask('remove', { name });
  }
}

async function showCall(image, number, place) {
  const { calls } = image.played;
  const ended = await changeOf(image, number);
  place.replaceChildren(el('h3', {}, 'Before and after'), chooser('Call', number, 1, calls.length, (it) => showCall(image, it, place)),
    el('pre', { className: 'code', id: 'call' }, calls[number - 1]), fill(el('div', { id: 'fields' }), printed(ended)));
}

/** The result of each line, beside the line. */
function resultsTable({ scripts, results }) {
  const calls = scripts.map(linesOf);
  const cells = ({ script, line, came }) => {
    const isRefused = /^\d/.test(came);
    return [`${script}.${line}`, el('code', {}, calls[script - 1][line - 1]), el('span', { className: isRefused ? 'bad' : 'code' }, isRefused ? `✗ ${came}` : came)];
  };
  return longTable('What each line came to', ['Line', 'Call', 'Result'], results, cells, { id: 'results' });
}

/** What was played last on this image, with its calls to be stepped through if the image still has them. */
function played(image) {
  const { results, counts, calls, before, change, text, error } = image.played;
  if (!results.length) return [printed({ text, error })];
  const steps = el('section', { 'aria-live': 'polite' });
  const wasCut = results.some((it) => it.came.startsWith('cut '));
  const isThere = change && image.done[before] === change;
  return [
    resultsTable(image.played),
    el('p', {}, `${counts.join(', ')}. `, calls.length && isThere && !wasCut ? button('Step through the calls', () => showCall(image, 1, steps), { id: 'step' })
      : null, wasCut ? 'The journal begins at the last cut, so its calls cannot be stepped through.' : null),
    calls.length ? el('details', {}, el('summary', {}, `The journal: ${counted(calls.length, 'call')}, in the order in which they were made`),
      el('pre', { className: 'code', id: 'journal' }, calls.join('\n'))) : null,
    error ? el('pre', { className: 'bad' }, error) : null, steps,
  ];
}

function area(k) {
  const box = el('textarea', { id: `script-${k + 1}`, rows: 6, spellcheck: false, value: texts[k] });
  box.addEventListener('input', () => (texts[k] = box.value));
  return el('p', {}, el('label', { htmlFor: box.id }, `${k ? 'Second' : 'First'} script`), box);
}

export async function showPlay(panel) {
  const { image } = state;
  const form = el('form', { onsubmit: doing(() => plays(image)) }, el('div', { className: 'scripts' }, area(0), area(1)), el('p', { className: 'row' },
    el('button', { type: 'submit', id: 'play', disabled: !image.isSound }, 'Play both'), button('Undo', () => undo(image), { disabled: !image.done.length })));
  const forms = FORMS.flatMap((it, k) => [k ? ', ' : '', el('code', {}, it)]);
  fill(panel, el('h2', {}, 'Scripts'),
    el('p', {}, 'Two scripts of calls share the volume. Each line is the time, a user and a group, and then one of: ', forms, '.'), form, image.played ? played(image) : null);
}
