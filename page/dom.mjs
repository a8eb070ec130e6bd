// Elements, words for numbers, dialogs, and what is done when the user asks for it.

export const $ = (id) => document.getElementById(id);

/** Makes an element. A property whose name begins with `on` is a listener. */
export function el(tag, props = {}, ...kids) {
  const made = document.createElement(tag);
  for (const [key, value] of Object.entries(props)) {
    if (value === undefined || value === null || value === false) continue;
    if (key.startsWith('on')) made.addEventListener(key.slice(2), value);
    else if (key in made) made[key] = value;
    else made.setAttribute(key, value);
  }
  return fill(made, ...kids);
}

/** Takes everything out of an element, and returns it. */
export function clear(box) {
  box.replaceChildren();
  return box;
}

/** Appends to an element what is there: text, elements, and lists of them. Returns it. */
export function fill(box, ...kids) {
  box.append(...kids.flat(2).filter((kid) => kid !== null && kid !== undefined && kid !== ''));
  return box;
}

/** Thrown where a command was stopped. */
export class Stopped extends Error {}

let running = 0;

/** Does what the user asked for. A fault of the page is said; a command that was stopped is none. */
export async function does(work) {
  document.body.dataset.running = ++running;
  try {
    await work();
  } catch (fault) {
    if (fault instanceof Stopped) say('Stopped. The images are as they were before.');
    else {
      say(`The page failed: ${fault.message}`, true);
      console.error(fault);
    }
  } finally {
    document.body.dataset.running = --running;
  }
}

/** A listener that does `work`, in place of what the browser would do. */
export const doing = (work) => (event) => {
  event.preventDefault();
  does(() => work(event));
};

export const button = (label, onclick, props = {}) => el('button', { type: 'button', onclick: doing(onclick), ...props }, label);

/** A button that looks like a link, since it leads to another view. */
export const link = (label, onclick, props = {}) => button(label, onclick, { className: 'link', ...props });

/** A row of a table. In a table without heads the first cell is one. */
const rowOf = (row, heads) => el('tr', {}, row.map((it, k) => (k || heads.length ? el('td', {}, it) : el('th', { scope: 'row' }, it))));

/** Makes a table. `rows` are lists of cells; a cell is text or an element. */
export function table(caption, heads, rows, props = {}) {
  const head = heads.length ? [el('thead', {}, el('tr', {}, heads.map((it) => el('th', { scope: 'col' }, it))))] : [];
  const body = rows.map((row) => rowOf(row, heads));
  return el('div', { className: 'wide' }, el('table', props, el('caption', {}, caption), head, el('tbody', {}, body)));
}

const ROWS = 500; // rows of a long table that are shown at once

/** Makes a table that may be long: its first rows are shown, and a button shows more. `cells` makes the row of an item. */
export function longTable(caption, heads, items, cells, props = {}) {
  const box = table(caption, heads, [], props);
  const more = el('p');
  const shows = (from) => {
    box.querySelector('tbody').append(...items.slice(from, from + ROWS).map((it) => rowOf(cells(it), heads)));
    const left = items.length - from - ROWS;
    more.replaceChildren(...(left > 0 ? [button(`Show more: ${counted(left, 'row')} follow`, () => shows(from + ROWS))] : []));
  };
  shows(0);
  return el('div', {}, box, more);
}

/** Says `message` on the page's status line, which screen readers read aloud. */
export function say(message, isBad = false) {
  const line = $('said');
  line.className = isBad ? 'bad' : '';
  line.textContent = message;
}

/** Lets the user save `blob` as a file. With this type a browser keeps the name as it is. */
export function save(name, blob) {
  const at = URL.createObjectURL(new Blob([blob], { type: 'application/octet-stream' }));
  const link = el('a', { href: at, download: name });
  document.body.append(link);
  link.click();
  link.remove();
  setTimeout(() => URL.revokeObjectURL(at), 60000);
}

export const counted = (count, one, many = `${one}s`) => `${count.toLocaleString('en')} ${count === 1 ? one : many}`;

/** Returns a moment as `ls -l` shows it. */
export const moment = (seconds) => new Date(seconds * 1000).toISOString().slice(0, 19).replace('T', ' ');

const LETTERS = { directory: 'd', file: '-', character: 'c', block: 'b' };

/** Returns kind and permissions as `ls -l` shows them. */
export function modeText(kind, permissions) {
  const letter = LETTERS[kind] ?? '?';
  const shown = [...'rwxrwxrwx'].map((it, k) => (permissions & (0o400 >> k) ? it : '-'));
  const special = [[0o4000, 2, 's'], [0o2000, 5, 's'], [0o1000, 8, 't']];
  for (const [bit, k, it] of special) if (permissions & bit) shown[k] = shown[k] === '-' ? it.toUpperCase() : it;
  return letter + shown.join('');
}

/** Asks the user in a dialog. `fields` are `{ name, label, value, options, hint }`. Returns the values by name, or null. */
export function asks(title, fields, { ok = 'OK', note = '' } = {}) {
  return new Promise((done) => {
    const inputs = fields.map(({ name, label, value = '', options, hint }) => {
      const input = options
        ? el('select', { name, id: `ask-${name}` }, options.map((it) =>
          el('option', { value: it.value ?? it, selected: (it.value ?? it) === value }, it.label ?? it)))
        : el('input', { name, id: `ask-${name}`, value, autocomplete: 'off', spellcheck: false });
      return el('p', {}, el('label', { htmlFor: `ask-${name}` }, label), input, hint ? el('small', {}, hint) : null);
    });
    const ends = (given) => {
      box.close();
      box.remove();
      done(given);
    };
    const form = el('form', {}, el('h2', { id: 'ask-title' }, title), note ? el('p', {}, note) : null, inputs,
      el('p', { className: 'row' }, el('button', { type: 'submit', className: 'main' }, ok), button('Cancel', () => ends(null))));
    form.addEventListener('submit', (event) => {
      event.preventDefault();
      ends(Object.fromEntries(inputs.map((it) => it.querySelector('input, select')).map((it) => [it.name, it.value])));
    });
    const box = el('dialog', { 'aria-labelledby': 'ask-title', oncancel: () => ends(null) }, form);
    document.body.append(box);
    box.showModal();
  });
}

/** Asks the user to choose files. */
export function chooseFiles(multiple = true) {
  return new Promise((done) => {
    const input = el('input', { type: 'file', multiple, hidden: true, id: 'chosen' });
    input.addEventListener('change', () => (input.remove(), done([...input.files])));
    input.addEventListener('cancel', () => (input.remove(), done([])));
    document.body.append(input);
    input.click();
  });
}
