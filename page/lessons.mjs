// The lessons: the twelve steps of docs/LESSON.md, whose commands run here, and a broken volume for each rule.
import { $, button, el, say } from './dom.mjs';
import { choose, go, open, removeFile, state } from './shelf.mjs';
import { runLine } from './shell.mjs';
import { lines } from './views.mjs';

let packed = null;

/** What is packed into the page: the text of the lesson, and for each image its bytes and its text. */
const lessons = () => (packed ??= JSON.parse($('lessons').textContent));

const bytesOf = (base64) => Uint8Array.from(atob(base64), (it) => it.charCodeAt(0));

/** Reads the part of Markdown that the lesson uses: headings, paragraphs and blocks of code. */
function blocks(markdown) {
  return markdown.split(/\n{2,}/).map((it) => {
    if (it.startsWith('## ')) return { heading: it.slice(3) };
    if (it.startsWith('# ')) return { title: it.slice(2) };
    if (it.startsWith('    ')) return { code: it.replace(/^ {4}/gm, '').trimEnd() };
    return { paragraph: it.replace(/\n/g, ' ').trim() };
  });
}

/** The words of a paragraph: code in backquotes, words in stars; the target of a link is left out. */
const words = (text) => text.replace(/\[([^\]]*)\]\([^)]*\)/g, '$1').split(/(`[^`]*`|\*{1,2}[^*]+\*{1,2})/).map((it) => {
  if (it.startsWith('`')) return el('code', {}, it.slice(1, -1));
  return it.startsWith('*') ? el('em', {}, it.replaceAll('*', '')) : it;
});

/** The commands of a block of code, each with what it prints. */
export function commands(code) {
  const found = [];
  for (const line of code.split('\n')) {
    if (line.startsWith('$ ')) found.push({ line: line.slice(2), prints: '' });
    else if (found.length) found.at(-1).prints += `${line}\n`;
  }
  return found;
}

function step(code) {
  const list = commands(code);
  const box = el('div', { className: 'step' }, lines(code, { className: 'code' }));
  if (list.length) box.append(el('p', {}, button('Run this', (event) => runStep(list, event.target.parentElement), { className: 'run' })));
  return box;
}

/** Runs the commands of a step, and says whether they print what the lesson has. */
async function runStep(list, place) {
  const out = el('pre', { className: 'came', 'aria-live': 'polite' });
  place.replaceChildren(button('Run this again', () => runStep(list, place), { className: 'run' }), out);
  for (const { line, prints } of list) {
    const ended = await runLine(line, { isPlain: true });
    const came = ended.text + ended.error;
    const isSame = came === prints;
    out.append(el('b', {}, `$ ${line}\n`), came, isSame ? el('span', { className: 'good' }, '✓ as the lesson has it\n')
      : el('span', { className: 'bad' }, '✗ the lesson has something else: begin again at step 1\n'));
  }
}

/** Forgets the disks of the lesson, so that it can begin anew. */
async function beginAgain() {
  for (const name of ['disk.img', 'six.img', 'motd', 'numbers', 'tree.tar']) await removeFile(name);
  shown = null;
  await go('lessons');
  say('The files of the lesson were removed.');
}

async function openLesson(name) {
  const [base64, text] = lessons().images[name];
  const image = await open(name, new Blob([bytesOf(base64)]), name.endsWith('6') ? '6' : '7');
  image.lesson = text;
  await choose(image);
  await go('check');
}

/** What was done to a lesson's image, for the tab that checks it. */
export const lessonText = () => (state.image?.lesson ? el('details', { id: 'lesson-text' }, el('summary', {}, 'What was done to this volume'),
  lines(state.image.lesson)) : null);

let shown = null;

/** The lessons, with what their steps printed. */
export async function showLessons(panel) {
  shown ??= makeLessons();
  panel.append(shown);
}

function makeLessons() {
  const { lesson, images } = lessons();
  const isSound = ([name]) => name.startsWith('sound');
  const all = Object.entries(images);
  const list = [...all.filter(isSound), ...all.filter((it) => !isSound(it))].map(([name, [, text]]) =>
    el('li', {}, button(name, () => openLesson(name), { 'data-lesson': name }), ' ', words(text.split('\n')[0])));
  return el('div', {}, el('h2', {}, 'Lessons'), el('h3', {}, 'A broken volume for each rule'),
    el('p', {}, 'Open one, look at Check, find the bytes, and mend them under Bytes.'), el('ul', { className: 'lessons' }, list),
    el('hr'), ...blocks(lesson).map((it) => (it.title ? el('h3', {}, it.title) : it.heading ? el('h4', {}, it.heading) : it.code ? step(it.code)
      : el('p', {}, words(it.paragraph)))),
    el('p', {}, button('Begin the twelve steps again', beginAgain)));
}
