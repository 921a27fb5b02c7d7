// The page: what is typed, opened and chosen on the left, what the program says of it on the right.
import { askDerivation } from './asking.mjs';
import { showAbout, showHandbook, showLink, showNew, showQuestion, showSave, showText } from './dialogs.mjs';
import { address, allFiles, chapter, handbook, links, openFiles, savings } from './disk.mjs';
import { Editor } from './editor.mjs';
import { Folder, stemOf } from './folder.mjs';
import { Kept, filesOfLink, save, unzipped } from './keeping.mjs';
import { Looking } from './looking.mjs';
import { byId, button, make } from './making.mjs';
import { rulesOf } from './paint.mjs';
import { goalPanel, sign, stateOf, summary, traitPanel } from './panel.mjs';
import { wholeReport } from './report.mjs';
import { blocksOf } from './script.mjs';

const NO_TRAIT = 'There is no trait yet: begin one, open files, or take some of the handbook';
const FULL = 'The browser keeps no more: save your files to the disk.';
const ENDINGS = ['lsl', 'lp'];
const COLOURS = ['system', 'light', 'dark'];

const data = JSON.parse(byId('data').textContent);
const rules = { lsl: rulesOf(data.grammars.lsl), lp: rulesOf(data.grammars.lp) };
const kept = new Kept(storage());
const has = { derive: false };
// What tests wait for.
const told = document.documentElement.dataset;
let folder = new Folder(), shown = '', isBorrowed = false, looking = null;

function storage() {
  try {
    return window.localStorage;
  } catch {
    return null;
  }
}

const note = (text, ...more) => byId('note').replaceChildren(text, ...more);

// ---- The two texts.

const texts = {
  lsl: new Editor(byId('trait-text'), 'Trait', { told: (text) => typed('lsl', text), moved: () => {} }),
  lp: new Editor(byId('script-text'), 'Script', { told: (text) => typed('lp', text), moved: () => looking?.look() }),
};

function typed(ending, text) {
  if (!shown) return;
  const name = `${shown}.${ending}`;
  // A script that is empty is none.
  if (ending === 'lsl' || text !== '') folder.put(name, text);
  else if (folder.has(name)) folder.drop(name);
  keep(name);
  looking.look();
}

function keep(name) {
  if (isBorrowed) return;
  if (!(folder.has(name) ? kept.put(name, folder.text(name)) : kept.drop(name))) note(FULL);
}

function show(stem) {
  shown = stem;
  byId('trait-name').textContent = stem ? `${stem}.lsl` : 'Trait';
  byId('script-name').textContent = stem ? `${stem}.lp` : 'Script';
  for (const ending of ENDINGS) texts[ending].open(folder.text(`${stem}.${ending}`), rules[ending]);
  if (!isBorrowed) kept.set('shown', stem);
  looking.forget();
  byId('goal').replaceChildren();
  list();
  looking.look();
}

// ---- What the program says: what `Looking` asks for and tells.

const board = {
  get stem() {
    return shown;
  },
  get folder() {
    return folder;
  },
  get line() {
    return texts.lp.line;
  },
  report(part, took) {
    draw(part);
    byId('time').textContent = part ? `${took.toFixed(0)} ms` : '';
    told.reported = String(Number(told.reported ?? 0) + 1);
    told.first ??= String(performance.now());
  },
  goal(goal, hasDuties) {
    byId('goal').replaceChildren(...(hasDuties ? goalPanel(goal) : []));
  },
  learnt(part, turn) {
    draw(part);
    told.answered = String(turn);
  },
  other(stem) {
    listState(stem);
    count();
  },
  settled(turn) {
    told.settled = String(turn);
  },
};

function draw(part) {
  byId('summary').replaceChildren(...(part ? [sign(stateOf(part)), ` ${summary(shown, part)}`] : [NO_TRAIT]));
  const open = new Set([...byId('parts').querySelectorAll('details[open]')].map((details) => details.dataset.key));
  byId('parts').replaceChildren(...(part ? traitPanel(part, looking.about, has, data.codes, go) : []));
  for (const details of byId('parts').querySelectorAll('details')) details.open = open.has(details.dataset.key);
  if (!part) return;
  markTrait(part);
  markScript(part);
  listState(shown);
  count();
}

function markTrait({ error }) {
  texts.lsl.mark(error ? [{ ...error, kind: 'error', title: error.code }] : []);
}

/** Marks the first line of each block by the state of its duty, and each line that is refused at its first token. */
function markScript({ duties, wrong }) {
  const lines = texts.lp.text.split('\n'), states = new Map(duties.map((duty) => [duty.label, duty.state]));
  const heads = blocksOf(texts.lp.text).map(({ label, begin }) => {
    const state = states.get(label) ?? '';
    return { line: begin, kind: state, title: state };
  });
  const places = [...wrong, ...duties.filter((duty) => duty.state === 'refused' && duty.line)];
  const refused = places.map(({ line, code }) => {
    const blanks = /^[ \t]*/.exec(lines[line - 1] ?? '')[0].length;
    return { line, column: blanks + 1, kind: 'refused', title: code };
  });
  texts.lp.mark([...heads, ...refused]);
}

// ---- The list of traits.

const rows = new Map();

function list() {
  const word = byId('filter').value.toLowerCase();
  rows.clear();
  const found = folder.stems().filter((stem) => stem.toLowerCase().includes(word));
  byId('list').replaceChildren(...found.map((stem) => {
    rows.set(stem, button('', () => show(stem), { 'aria-current': String(stem === shown) }));
    listState(stem);
    return make('li', {}, rows.get(stem));
  }));
  count();
}

function listState(stem) {
  const row = rows.get(stem), state = stateOf(looking.known(stem));
  if (!row || row.dataset.state === state) return;
  row.replaceChildren(sign(state), ` ${stem}`);
  row.dataset.state = state;
}

/** The reports on all traits as they stand, or null while some are awaited or can't be had. */
function allParts() {
  const parts = folder.stems().map((stem) => looking.known(stem));
  return parts.length && parts.every((part) => part && !part.trouble) ? parts : null;
}

function count() {
  const traits = folder.names().filter((name) => name.endsWith('.lsl')).length;
  const report = allParts() ? [button('report', showReport, { class: 'link' })] : [];
  byId('count').replaceChildren(`${traits} ${traits === 1 ? 'trait' : 'traits'} `, ...report);
}

function showReport() {
  const parts = allParts();
  if (!parts) return;
  const text = wholeReport(parts);
  showText('The report on all files', text, () => save('report.txt', text));
}

// ---- Where links of the panel and keys lead.

function view(name) {
  document.body.dataset.shown = name;
  for (const one of document.querySelectorAll('#views button'))
    one.setAttribute('aria-pressed', String(one.dataset.view === name));
}

/** Goes to a place of the trait or the script. */
function goTo(ending, line, column) {
  view(ending === 'lsl' ? 'trait' : 'script');
  texts[ending].go(line, column);
}

function beginBlock(label) {
  const { text } = texts.lp, end = !text || text.endsWith('\n') ? '' : '\n';
  view('script');
  texts.lp.append(`${end}${text ? '\n' : ''}duty ${label}\n  `);
}

const go = {
  trait: (line, column) => goTo('lsl', line, column),
  script: (line) => goTo('lp', line),
  block: (label) => {
    const block = blocksOf(texts.lp.text).find((one) => one.label === label);
    if (block) goTo('lp', block.begin);
    else beginBlock(label);
  },
  derivation: async (label) => {
    const name = `${shown}.${label}.cert`;
    const { said, cut } = await askDerivation((call) => looking.ask(call), folder, shown, label);
    showText(`The derivation of ${shown} ${label}`, said ?? cut, () => save(name, said ?? ''));
  },
};

/** Goes to the next marked place behind the cursor, of the trait and then of the script, or to the first. */
function nextMark() {
  const places = ENDINGS.flatMap((ending) => texts[ending].marks.filter((mark) => mark.column)
    .map(({ line, column }) => ({ ending, line, column })));
  if (!places.length) return note('Nothing is marked.');
  const here = ENDINGS.find((ending) => document.activeElement === texts[ending].area);
  const isBehind = ({ ending, line }) => (ending === here ? line > texts[here].line : here !== 'lp');
  const { ending, line, column } = places.find(isBehind) ?? places[0];
  return goTo(ending, line, column);
}

// ---- Files.

/** Takes files into the folder, and shows a trait. */
function take(files, stem = stemOf(files[0][0])) {
  for (const [name, text] of files) {
    folder.put(name, text);
    keep(name);
  }
  show(stem);
}

async function open(picked) {
  const { files, refused } = await openFiles(picked);
  if (refused.length) note(`Not taken: ${refused.join(', ')}. Files are texts of UTF-8 with names such as Sum.lsl.`);
  if (files.length) take(files);
}

function takeOut(stem) {
  for (const name of ENDINGS.map((ending) => `${stem}.${ending}`).filter((one) => folder.has(one))) {
    folder.drop(name);
    keep(name);
  }
  show(folder.stems()[0] ?? '');
}

function offerSave() {
  const stem = shown;
  showSave([...savings(folder, stem), ...(stem ? [[`take ${stem} out of the page`, () => takeOut(stem)]] : [])]);
}

async function offerHandbook() {
  const books = await handbook();
  const takeAll = () => take(allFiles(books.folder), shown || undefined);
  showHandbook(books, (stem) => take(chapter(books, stem), stem), takeAll);
}

/** Shows the files of a link in the place of those that are kept, which stay as they are. */
function borrow({ files, shown: stem }) {
  isBorrowed = true;
  folder = new Folder(files);
  note('These files are of a link, and aren\'t kept. ', button('Keep them', keepBorrowed, { class: 'small' }), ' ',
    button('Back to mine', giveBack, { class: 'small' }));
  show(folder.has(`${stem}.lsl`) ? stem : folder.stems()[0]);
}

function keepBorrowed() {
  const files = allFiles(folder), stem = shown, mine = new Map(kept.files());
  const others = files.filter(([name, text]) => mine.has(name) && mine.get(name) !== text).map(([name]) => name);
  const done = () => {
    giveBack();
    take(files, stem);
  };
  const question = `These files of yours are replaced: ${others.join(', ')}.`;
  if (others.length) showQuestion('Files of the same name', question, 'Replace them', done);
  else done();
}

function giveBack() {
  isBorrowed = false;
  history.replaceState(null, '', address());
  note('');
  showKept();
}

/** Shows the files that are kept; where there are none, those of a first visit. */
function showKept() {
  const mine = kept.files(), last = kept.setting('shown');
  folder = new Folder(mine.length ? mine : Object.entries(data.first));
  folder.names().forEach(keep);
  show(folder.stems().includes(last) ? last : folder.stems()[0]);
}

// ---- Colours, keys, beginning.

function colour(name) {
  document.documentElement.dataset.colours = name;
  const label = `Colours: ${name === 'system' ? 'as the system' : name}`;
  byId('colours').setAttribute('aria-label', label);
  byId('colours').title = label;
}

function nextColour() {
  const name = COLOURS[(COLOURS.indexOf(document.documentElement.dataset.colours) + 1) % COLOURS.length];
  colour(name);
  kept.set('colours', name);
}

function focusOn(name, element) {
  view(name);
  element?.focus();
}

const KEYS = {
  'Alt+1': () => focusOn('files', rows.get(shown) ?? byId('filter')),
  'Alt+2': () => focusOn('trait', texts.lsl.area),
  'Alt+3': () => focusOn('script', texts.lp.area),
  'Alt+4': () => focusOn('says', byId('parts').querySelector('button, summary')),
  F8: nextMark,
  'Ctrl+s': offerSave,
};

function keyOf(event) {
  // With Alt a keyboard may write another sign for a digit.
  const key = event.altKey && /^Digit\d$/.test(event.code) ? event.code.slice(5) : event.key;
  return `${event.ctrlKey || event.metaKey ? 'Ctrl+' : ''}${event.altKey ? 'Alt+' : ''}${key}`;
}

const BUTTONS = {
  new: () => showNew(folder, (stem, text) => take([[`${stem}.lsl`, text]], stem)),
  open: () => byId('pick').click(),
  save: offerSave,
  share: () => shown && showLink(links(folder, shown)),
  handbook: offerHandbook,
  about: () => showAbout(data.program, has.derive),
  colours: nextColour,
};

function listen() {
  for (const [id, act] of Object.entries(BUTTONS)) byId(id).addEventListener('click', act);
  for (const one of document.querySelectorAll('#views button'))
    one.addEventListener('click', () => view(one.dataset.view));
  byId('pick').addEventListener('change', () => open([...byId('pick').files]));
  byId('filter').addEventListener('input', list);
  document.addEventListener('keydown', (event) => {
    const act = byId('dialog').open ? null : KEYS[keyOf(event)];
    if (!act) return;
    event.preventDefault();
    act();
  });
  document.addEventListener('dragover', (event) => event.preventDefault());
  document.addEventListener('drop', (event) => {
    event.preventDefault();
    open([...event.dataTransfer.files]);
  });
  window.addEventListener('hashchange', async () => {
    const files = await filesOfLink(location.hash);
    if (files) borrow(files);
  });
}

async function begin() {
  const chosen = kept.setting('colours');
  colour(COLOURS.includes(chosen) ? chosen : COLOURS[0]);
  view('trait');
  const source = URL.createObjectURL(new Blob([byId('worker').textContent], { type: 'text/javascript' }));
  looking = new Looking(board, () => new Worker(source), await unzipped(byId('module').textContent));
  listen();
  const files = await filesOfLink(location.hash);
  if (files) borrow(files);
  else showKept();
  has.derive = await looking.hasDerive();
  told.begun = 'yes';
}

begin();
