// What the program says, as the page shows it: of a trait, of its duties, of the goal at the cursor.
import { button, make } from './making.mjs';

const MARKS = { proved: '✓', suspended: '…', refused: '✗', error: '✗', cut: '!', none: '·' };
const NO_CURSOR = 'Set the cursor into a block of the script: what is left to prove behind its line stands here.';

/** The sign of a state, with its name for those who don't see it. */
export function sign(state) {
  const said = { class: `sign ${state}`, role: 'img', 'aria-label': state, title: state };
  return make('span', said, MARKS[state] ?? MARKS.none);
}

const goals = (count) => `${count} ${count === 1 ? 'goal' : 'goals'} open`;
const strong = (text) => make('strong', {}, text);
const code = (text) => make('code', {}, text);
const link = (text, act, title) => button(text, act, { class: 'link', title });

/** Why there is no report: the engine's end, or what the program said in its place. */
function troubleText({ cut, givenUp, said, status }) {
  if (givenUp) return `It was given up: ${cut}.`;
  if (cut === undefined) return `The program said: ${said.trim()} (status ${status}).`;
  return `The browser's engine ended the call (${cut}). Its stack or its memory is too small for this text: terms`
    + ' that are some thousands deep don\'t fit. The program began afresh, and nothing of the call is left; a program'
    + ' on your machine has more room.';
}

/** In one word what is known of a trait: the state of its worst part. */
export function stateOf(part) {
  if (!part) return 'none';
  if (part.trouble) return 'cut';
  if (part.error || part.wrong.length || part.isAlone) return 'error';
  const states = part.duties.map((duty) => duty.state);
  return ['refused', 'suspended'].find((state) => states.includes(state)) ?? 'proved';
}

function countText(duties) {
  const count = (state) => duties.filter((duty) => duty.state === state).length;
  const others = ['suspended', 'refused'].filter(count).map((state) => `${count(state)} ${state}`);
  return [`${count('proved')} of ${duties.length} proved`, ...others].join(', ');
}

/** A line about a whole trait. */
export function summary(stem, part) {
  const { trouble, isAlone, error, duties } = part;
  if (trouble) return `${stem}: no report`;
  if (isAlone) return `${stem}: a script without a trait`;
  if (error) return `${stem}: refused at line ${error.line}, column ${error.column}: ${error.code}`;
  return `${stem}: nothing is wrong with it${duties.length ? `; ${countText(duties)}` : ', and it claims nothing'}`;
}

/** The text on a code, which page/bundle.py made of a document: the one place where HTML is read. */
function textOn(name, codes) {
  const text = make('div', { class: 'meaning' });
  text.innerHTML = codes[name] ?? 'Nothing is written of this code.';
  return text;
}

/** What a code means, folded behind its name; `key` is by what it is known to be open when it is drawn anew. */
function meaning(name, codes, key) {
  const head = make('summary', {}, `What ${name} means`);
  return make('details', { 'data-key': `${key} ${name}` }, head, textOn(name, codes));
}

/** A refused trait: its place, which leads there, and what the code means. */
function errorBox({ line, column, code: name }, codes, go) {
  const place = link(`line ${line}, column ${column}`, () => go.trait(line, column));
  return make('div', { class: 'box error' }, make('p', {}, place, ' ', strong(name)), textOn(name, codes));
}

/** What is left of a duty, or why it is refused. */
function remainder(duty, codes, go) {
  if (duty.state === 'proved') return null;
  if (duty.state === 'suspended') return make('div', { class: 'under' }, `${goals(duty.goals)}, at `, code(duty.goal));
  const at = duty.line ? link(`line ${duty.line}`, () => go.script(duty.line)) : 'its opening';
  const why = meaning(duty.code, codes, duty.label);
  return make('div', { class: 'under' }, 'refused at ', at, ': ', strong(duty.code), why);
}

/** One duty: its state, its label, which leads to its block, its statement. */
function dutyRow(duty, statement, has, codes, go) {
  const label = link(duty.label, () => go.block(duty.label), `go to the block of ${duty.label}, or begin it`);
  const isShown = has.derive && duty.state === 'proved';
  const derive = isShown && button('derivation', () => go.derivation(duty.label), { class: 'small' });
  const head = make('div', { class: 'duty' }, sign(duty.state), ' ', label, ' ', code(statement), ' ', derive);
  return make('li', {}, head, remainder(duty, codes, go));
}

function dutyList(part, about, has, codes, go) {
  if (!part.duties.length) return null;
  const rows = part.duties.map((duty) => dutyRow(duty, about.statements.get(duty.label) ?? '', has, codes, go));
  return make('section', { 'aria-label': 'Duties' }, make('h3', {}, 'What is to be proved'),
    make('ul', { class: 'duties' }, rows));
}

/** The statements and operators of the trait, which the names A1, A2 .. of facts come from. */
function theoryList({ theory }) {
  if (!theory.length) return null;
  return make('details', { class: 'theory', 'data-key': 'theory' },
    make('summary', {}, `What it consists of (${theory.length})`), make('pre', {}, theory.join('\n')));
}

/** A line of a script that begins a block of no duty, or of one that has a block. */
function wrongLine({ line, code: name }, codes, go) {
  const place = link(`line ${line}`, () => go.script(line));
  return make('div', { class: 'box error' }, 'script, ', place, ': ', strong(name), meaning(name, codes, line));
}

/** All that is said of one trait. */
export function traitPanel(part, about, has, codes, go) {
  if (part.trouble) return [make('div', { class: 'box cut' }, make('p', {}, troubleText(part.trouble)))];
  const error = part.error && errorBox(part.error, codes, go);
  const wrong = part.wrong.map((line) => wrongLine(line, codes, go));
  return [error, ...wrong, dutyList(part, about, has, codes, go), theoryList(about)].filter(Boolean);
}

function goalText(goal) {
  if (goal.state === 'proved') return [sign('proved'), ` ${goal.label} is proved here`];
  if (goal.state === 'cut') return [sign('cut'), ` ${troubleText({ cut: goal.why })}`];
  if (goal.state === 'suspended') {
    const head = make('div', {}, sign('suspended'), ` ${goal.label}, ${goals(goal.goals)}; the current one:`);
    return [head, make('pre', {}, goal.goal)];
  }
  const isHere = goal.line === goal.at, place = isHere ? 'this line' : `line ${goal.line}`;
  const head = make('div', {}, sign('refused'), ` ${goal.label}: ${place} is refused: `, strong(goal.code));
  return isHere && goal.before ? [head, make('div', {}, 'In front of it:'), ...goalText(goal.before)] : [head];
}

/** The goal at a line of the script. */
export function goalPanel(goal) {
  if (!goal) return [make('p', { class: 'quiet' }, NO_CURSOR)];
  return [make('h3', {}, `Behind line ${goal.at} of the script`), ...goalText(goal)];
}
