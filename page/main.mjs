// The page: its tabs, its buttons, and files that are dropped on it.
import { $, asks, chooseFiles, counted, does, doing, el, fill, say } from './dom.mjs';
import { showBytesOfBlock } from './bytes.mjs';
import { exportTree, importArchive, importFolders, insides, newVolume, putFiles, salvage } from './edit.mjs';
import { start, unixvol } from './engine.mjs';
import { showFile } from './file.mjs';
import { droppedEntries } from './folders.mjs';
import { lessonText, showLessons } from './lessons.mjs';
import { showMap } from './map.mjs';
import { showPlay } from './play.mjs';
import { choose, go, on, open, refill, setEdition, state, undo } from './shelf.mjs';
import { saveImage, showChanges, showImages, showShell, verdict } from './tables.mjs';
import { readTree, showTree } from './tree.mjs';
import { showCheck, showFind, showInode, showVolume } from './views.mjs';

/** The tabs. One that `needs` a volume says so if there is none. */
const TABS = {
  images: { name: 'Images', show: showImages },
  check: { name: 'Check', show: async (panel) => (await showCheck(panel), fill(panel, lessonText())), needs: 'image' },
  file: { name: 'File', show: showFile, needs: 'volume' },
  map: { name: 'Map', show: showMap, needs: 'volume' },
  inode: { name: 'I-node', show: showInode, needs: 'volume' },
  bytes: { name: 'Bytes', show: showBytesOfBlock, needs: 'image' },
  volume: { name: 'Volume', show: showVolume, needs: 'volume' },
  find: { name: 'Find', show: showFind, needs: 'volume' },
  changes: { name: 'Changes', show: showChanges, needs: 'image' },
  play: { name: 'Scripts', show: showPlay, needs: 'volume' },
  shell: { name: 'Command line', show: showShell },
  lessons: { name: 'Lessons', show: showLessons },
};

const tabList = () => [...$('tabs').querySelectorAll('[role=tab]')];

function makeTabs() {
  $('tabs').append(...Object.entries(TABS).map(([id, { name }]) => el('button',
    { type: 'button', role: 'tab', id: `tab-${id}`, 'aria-controls': 'panel', onclick: doing(() => go(id)) }, name)));
  $('tabs').addEventListener('keydown', (event) => {
    const all = tabList();
    const k = all.indexOf(document.activeElement);
    const to = { ArrowRight: k + 1, ArrowLeft: k - 1, Home: 0, End: -1 }[event.key];
    if (k < 0 || to === undefined) return;
    event.preventDefault();
    const next = all.at(to % all.length);
    next.focus();
    next.click();
  });
}

/** Shows the tab that is chosen. What was begun for another tab is thrown away. */
async function render() {
  const tab = TABS[state.tab];
  for (const it of tabList()) {
    const isChosen = it.id === `tab-${state.tab}`;
    it.setAttribute('aria-selected', String(isChosen));
    it.tabIndex = isChosen ? 0 : -1;
    if (isChosen) it.scrollIntoView({ block: 'nearest', inline: 'nearest' });
  }
  const shown = el('div', { className: 'shown' });
  const focused = $('panel').contains(document.activeElement) ? document.activeElement.id : '';
  $('panel').setAttribute('aria-labelledby', `tab-${state.tab}`);
  $('panel').replaceChildren(shown);
  $('panel').dataset.shown = '';
  if (tab.needs && !state.image) shown.append(el('p', {}, 'No image is open. Choose one, make a new volume, or open one of the lessons.'));
  else if (tab.needs === 'volume' && !state.image.isReadable) shown.append(el('p', { className: 'bad' },
    `${state.image.name} can't be read as a volume of edition ${state.image.edition}. Check says more, and Bytes shows what is there.`));
  else await tab.show(shown);
  if ($('panel').firstChild !== shown) return;
  $('panel').dataset.shown = state.tab;
  if (focused && document.activeElement === document.body) $(focused)?.focus();
}

/** On a narrow screen, where the tabs are below the tree, scrolls to them. */
function showSide() {
  if (matchMedia('(max-width: 760px)').matches) $('side').scrollIntoView({ block: 'start' });
}

/** Shows which image is open, and at once what is broken. */
function showHead() {
  const { image } = state;
  $('head').hidden = !image;
  document.body.classList.toggle('empty', !image);
  if (!image) return;
  $('image').replaceChildren(...state.images.map((it) => el('option', { value: it.name, selected: it === image }, it.name)));
  $('edition').value = image.edition;
  const use = image.use ? `${counted(image.use.blocks, 'block')}, ${image.use.free_blocks.toLocaleString('en')} free; ` : '';
  const what = image.isReadable ? 'What can be read is shown; commands that change a volume refuse this one.'
    : insides(image).length ? 'What is in it can be opened under Images.'
      : image.isVolume && image.isCut ? 'The files that are whole can be exported under Check.' : 'Nothing of it can be read as files.';
  $('state').className = image.isSound ? 'good' : 'bad';
  $('state').textContent = image.isSound ? `${use}✓ sound` : `${use}✗ ${verdict(image)}. ${what}`;
  $('undo-last').disabled = !image.done.length;
  $('save').textContent = image.isChanged ? 'Download changed image' : 'Download image';
  $('salvage').hidden = !image.broken.length || image.broken.some((it) => it.rule !== 6 && it.rule !== 8);
  for (const id of ['import-tar', 'put-files']) $(id).disabled = !image.isSound;
  $('export-tar').disabled = !image.isReadable;
}

async function openFiles(list) {
  let last = null;
  for (const [k, file] of list.entries()) {
    if (list.length > 1) say(`Opening ${k + 1} of ${list.length}: ${file.name}`);
    last = (await open(file.name, file)) ?? last;
  }
  if (last) await choose(last);
  if (list.length) await go(list.length > 1 ? 'images' : state.tab === 'lessons' || state.tab === 'images' ? 'check' : state.tab);
}

async function importChosen() {
  const [file] = await chooseFiles(false);
  if (file) await importArchive(file, file.name, await here());
}

/** The directory that is selected, or that the selected file is in. */
async function here() {
  const root = await readTree(state.image);
  const entry = state.entry ?? root;
  return entry.kids ? entry : (root.all.get(entry.up) ?? root);
}

function makeButtons() {
  const clicked = (id, work) => $(id).addEventListener('click', doing(work));
  clicked('open', async () => openFiles(await chooseFiles()));
  clicked('new', newVolume);
  clicked('save', () => saveImage(state.image));
  clicked('export-tar', async () => exportTree(await readTree(state.image)));
  clicked('import-tar', importChosen);
  clicked('put-files', async () => putFiles(await chooseFiles(), await here()));
  clicked('undo-last', () => undo(state.image));
  clicked('salvage', salvage);
  clicked('copy', copyCommand);
  $('image').addEventListener('change', doing(() => choose(state.images.find((it) => it.name === $('image').value))));
  $('edition').addEventListener('change', doing(() => setEdition(state.image, $('edition').value)));
}

/** Copies the last command; where a page may not, selects it. */
async function copyCommand() {
  try {
    await navigator.clipboard.writeText($('last').textContent);
    say('The command was copied.');
  } catch {
    getSelection().selectAllChildren($('last'));
    say('The command is selected: copy it by Ctrl-C.');
  }
}

/** Files and folders that are dropped on the tree go into the volume; files that are dropped elsewhere are opened. */
function makeDrops() {
  addEventListener('dragover', (event) => {
    event.preventDefault();
    const intoVolume = event.target.closest?.('#tree') && state.image?.isSound;
    document.body.dataset.drop = intoVolume ? 'put' : 'open';
  });
  for (const event of ['dragleave', 'dragend', 'drop']) addEventListener(event, (it) => (it.type === 'dragleave' && it.relatedTarget ? null
    : delete document.body.dataset.drop));
  addEventListener('drop', (event) => {
    event.preventDefault();
    const files = [...event.dataTransfer.files];
    const entries = droppedEntries(event.dataTransfer);
    const item = event.target.closest?.('#tree') && state.image?.isSound ? (event.target.closest('[data-path]') ?? $('tree').querySelector('[data-path]'))
      : null;
    does(() => (item ? dropInto(item.dataset.path, files, entries) : openDropped(files, entries)));
  });
}

/** Opens files as images. A folder is none. */
async function openDropped(files, entries) {
  if (entries.some((it) => it.isDirectory)) return say('A folder is no image: drop it on the tree of a sound volume, to put it in.', true);
  await openFiles(files);
}

async function dropInto(path, files, entries) {
  const root = await readTree(state.image);
  const node = root.all.get(path);
  const directory = node.kids ? node : root.all.get(node.up);
  if (entries.some((it) => it.isDirectory)) return importFolders(entries, directory);
  const [first] = files;
  if (files.length === 1 && first.name.endsWith('.tar')) {
    const given = await asks(first.name,
      [{ name: 'how', label: 'Put it in', value: 'import', options: [{ value: 'import', label: 'the files that are in it' },
      { value: 'put', label: 'the archive itself' }] }]);
    if (!given) return;
    if (given.how === 'import') return importArchive(first, first.name, directory);
  }
  await putFiles(files, directory);
}

async function begin() {
  const packed = Uint8Array.from(atob($('module').textContent.trim()), (it) => it.charCodeAt(0));
  const unpacked = new Blob([packed]).stream().pipeThrough(new DecompressionStream('gzip'));
  await start(new Uint8Array(await new Response(unpacked).arrayBuffer()), refill);
  $('version').textContent = (await unixvol('--version')).text.trim();
  on('images', showHead);
  on('images', showTree);
  on('images', () => state.tab === 'images' && render());
  on('bytes', showHead);
  on('bytes', showTree);
  on('bytes', () => state.tab !== 'lessons' && render());
  on('entry', render);
  on('tab', render);
  on('tab', showSide);
  makeTabs();
  makeButtons();
  makeDrops();
  showHead();
  await render();
  document.body.dataset.ready = 'yes';
}

does(begin);
addEventListener('beforeunload', (event) => state.images.some((it) => it.isChanged) && event.preventDefault());
addEventListener('unhandledrejection', (event) => doing(() => Promise.reject(event.reason))(event));
