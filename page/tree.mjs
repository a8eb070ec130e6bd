// The tree of a volume, by the tree pattern of WAI-ARIA.
import { $, counted, does, el, modeText, moment, say } from './dom.mjs';
import { ask } from './engine.mjs';
import { INODE_BYTES, readInode } from './layout.mjs';
import { at, go, run, state, tell } from './shelf.mjs';

const FEW = 40; // names of a volume whose directories are all shown open
const MANY = 200; // names of a directory that are shown at once
const READ = 1 << 27; // characters of names that are read

/** Turns a path as `--json` shows it into its bytes, and these into text, if they are text. */
export function plainPath(escaped) {
  if (!escaped.includes('\\')) return escaped;
  const bytes = [];
  for (let k = 0; k < escaped.length; k++) {
    if (escaped[k] !== '\\') bytes.push(escaped.charCodeAt(k));
    else if (escaped[k + 1] === '\\') bytes.push(92), k++;
    else bytes.push(parseInt(escaped.slice(k + 1, k + 4), 8)), (k += 3);
  }
  try {
    return new TextDecoder('utf-8', { fatal: true, ignoreBOM: true }).decode(Uint8Array.from(bytes));
  } catch {
    return null;
  }
}

/** Reads the tree of an image: a root with all entries below it. A damaged volume is read as far as it can be. */
export async function readTree(image) {
  const root = { path: '/', word: '/', name: '/', kind: 'directory', inode: image.edition === '6' ? 1 : 2, kids: [] };
  if (image.tree?.version === image.version) return image.tree;
  image.tree = Object.assign(root, { version: image.version, all: new Map([['/', root]]) });
  if (!image.isReadable) return root;
  for (const it of await (image.isSound ? listed(image) : salvaged(image, root))) grow(root, it);
  return root;
}

/** Runs a command over all names, and reads what it prints. A hostile image may have far more of it than this page reads; then there is nothing. */
async function readNames(args) {
  const { text, cut } = await run(args, { limit: READ });
  if (cut) say('The volume has more names, or longer paths, than this page reads: its tree is not shown.', true);
  return text && !cut ? JSON.parse(text) : {};
}

const asEntry = ({ ino, mtime, permissions, ...it }) => ({ ...it, inode: ino, modified: mtime, permissions: parseInt(permissions, 8) });

const listed = async (image) => ((await readNames(['ls', '-R', '--json', ...at(image)])).entries ?? []).map(asEntry);

/** The entries of a damaged volume: their paths as `ncheck` has them, and their i-nodes. Those that no way leads to from the root are below `...`. */
async function salvaged(image, root) {
  const entries = (await readNames(['ncheck', '--json', ...at(image), 1])).lines ?? [];
  const { bytes } = await ask('slice', { name: image.name, at: 1024, length: INODE_BYTES[image.edition] * image.use.inodes });
  Object.assign(root, readInode(image.edition, bytes, root.inode));
  if (entries.some((it) => it.path.startsWith('...'))) grow(root, { path: '/...', kind: 'directory', inode: 0 });
  const found = entries.map((it) => ({ ...readInode(image.edition, bytes, it.ino), inode: it.ino, path: it.path.replace(/^\.\.\.\/?/, '/.../') }));
  return found.sort((a, b) => (a.path < b.path ? -1 : 1));
}

function grow(root, entry) {
  const cut = entry.path.lastIndexOf('/');
  const name = entry.path.slice(cut + 1);
  const isRootItself = entry.path === '/.';
  if (isRootItself) Object.assign(root, { ...entry, path: '/', name: '/', kids: root.kids });
  if (name === '.' || name === '..') return;
  const node = { ...entry, name, word: entry.path.startsWith('/...') ? null : plainPath(entry.path), up: entry.path.slice(0, cut) || '/',
    kids: entry.kind === 'directory' ? [] : null };
  root.all.set(entry.path, node);
  root.all.get(node.up)?.kids?.push(node);
}

/** Shows the tree of the image that is open, with the directories open that were. */
export async function showTree() {
  const box = $('tree');
  const { image } = state;
  if (!image) return box.replaceChildren();
  const root = await readTree(image);
  image.opened ??= new Set(root.all.size <= FEW ? root.all.keys() : ['/']);
  const list = el('ul', { role: 'tree', 'aria-label': `files of ${image.name}`, onkeydown: keys }, item(root, 1, image.opened));
  list.querySelector('[role=treeitem]').tabIndex = 0;
  const focused = box.contains(document.activeElement) ? document.activeElement.dataset.path : null;
  box.replaceChildren(list);
  if (state.entry) {
    state.entry = root.all.get(state.entry.path) ?? root;
    mark(state.entry.path);
  }
  if (focused) focus(itemOf(focused) ?? itemOf('/'));
}

const itemOf = (path) => [...$('tree').querySelectorAll('[role=treeitem]')].find((it) => it.dataset.path === path);

function item(node, level, opened) {
  const { kids } = node;
  const isOpen = kids && opened.has(node.path);
  const device = node.major === undefined ? '' : `${node.major}, ${node.minor}`;
  const size = device || (node.size === undefined ? '' : node.size.toLocaleString('en'));
  const mode = node.permissions === undefined ? '' : modeText(node.kind, node.permissions);
  const line = el('div', { className: 'line' },
    el('span', { className: 'name' }, el('span', { className: 'mark', 'aria-hidden': 'true' }, kids ? (isOpen ? '▾' : '▸') : ' '), node.name),
    el('span', { className: 'mode' }, mode), el('span', { className: 'owner' }, node.uid === undefined ? '' : `${node.uid} ${node.gid}`),
    el('span', { className: 'size' }, size), el('span', { className: 'date' }, node.modified === undefined ? '' : moment(node.modified)));
  const made = el('li', { role: 'treeitem', 'aria-level': level, 'aria-expanded': kids ? String(Boolean(isOpen)) : null, tabIndex: -1, 'data-path': node.path,
    'aria-selected': 'false', 'aria-label': `${node.name}, ${node.kind}${size && !kids ? (device ? `, major and minor ${device}` : `, ${size} bytes`) : ''}` }, line);
  made.style.setProperty('--depth', level - 1);
  line.addEventListener('click', () => does(() => (kids && toggle(made), pick(made))));
  if (isOpen) made.append(group(node, level + 1, opened));
  return made;
}

/** The names in a directory; of very many the first are shown, with a last item that shows more. */
function group(node, level, opened) {
  const list = el('ul', { role: 'group' });
  const more = (from) => {
    list.append(...node.kids.slice(from, from + MANY).map((it) => item(it, level, opened)));
    const left = node.kids.length - from - MANY;
    if (left <= 0) return;
    const last = el('li', { role: 'treeitem', 'aria-level': level, tabIndex: -1, className: 'more' },
      el('div', { className: 'line' }, `${counted(left, 'more name')} …`));
    last.show = () => (last.remove(), more(from + MANY));
    last.addEventListener('click', last.show);
    list.append(last);
  };
  more(0);
  return list;
}

const nodeOf = (it) => state.image.tree.all.get(it.dataset.path);

function toggle(it, isOpen = it.getAttribute('aria-expanded') !== 'true') {
  if (!it.hasAttribute('aria-expanded')) return;
  it.setAttribute('aria-expanded', String(isOpen));
  it.querySelector('.mark').textContent = isOpen ? '▾' : '▸';
  it.querySelector(':scope > ul')?.remove();
  const { path } = it.dataset;
  const { opened } = state.image;
  if (isOpen) it.append(group(nodeOf(it), Number(it.getAttribute('aria-level')) + 1, opened));
  if (isOpen) opened.add(path);
  else opened.delete(path);
}

function focus(it) {
  if (!it) return;
  for (const old of $('tree').querySelectorAll('[tabindex="0"]')) old.tabIndex = -1;
  it.tabIndex = 0;
  it.focus();
}

function mark(path) {
  for (const old of $('tree').querySelectorAll('[aria-selected=true]')) old.setAttribute('aria-selected', 'false');
  const it = itemOf(path);
  it?.setAttribute('aria-selected', 'true');
  return it;
}

/** Selects an item, and shows it in the tab that is open, if that shows files. */
async function pick(it) {
  if (it.show) return it.show();
  focus(it);
  mark(it.dataset.path);
  const node = nodeOf(it);
  state.entry = node;
  await go(['inode', 'map'].includes(state.tab) ? state.tab : 'file', { inode: node.inode });
}

/** Opens the directories that lead to a path, and selects it. */
export async function reveal(path) {
  const root = await readTree(state.image);
  for (let node = root.all.get(path); node && node.up; node = root.all.get(node.up)) state.image.opened.add(node.up);
  state.entry = root.all.get(path) ?? root;
  await showTree();
  mark(path)?.scrollIntoView({ block: 'nearest' });
  await tell('entry');
}

/** Arrow keys, Home, End, Enter and the first letter of a name. */
function keys(event) {
  const items = [...$('tree').querySelectorAll('[role=treeitem]')];
  const here = document.activeElement;
  const k = items.indexOf(here);
  const isOpen = here.getAttribute('aria-expanded');
  const steps = {
    ArrowDown: () => focus(items[k + 1]),
    ArrowUp: () => focus(items[k - 1]),
    Home: () => focus(items[0]),
    End: () => focus(items.at(-1)),
    ArrowRight: () => (isOpen === 'false' ? toggle(here, true) : isOpen && focus(here.querySelector('[role=treeitem]'))),
    ArrowLeft: () => (isOpen === 'true' ? toggle(here, false) : focus(here.parentElement.closest('[role=treeitem]'))),
    Enter: () => does(() => pick(here)),
    ' ': () => does(() => pick(here)),
  };
  const letter = event.key.length === 1 && event.key !== ' ' && !event.ctrlKey && !event.metaKey && !event.altKey;
  if (letter) focus([...items.slice(k + 1), ...items.slice(0, k)].find((it) => it.dataset.path
    && nodeOf(it).name.toLowerCase().startsWith(event.key.toLowerCase())));
  else if (steps[event.key]) steps[event.key]();
  else return;
  event.preventDefault();
}
