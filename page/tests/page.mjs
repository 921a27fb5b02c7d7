// Tests the page in a browser: page.mjs PAGE PROGRAM [--browser firefox] [--quick] [--pictures FOLDER]
//
// The page is opened from its file. What it says is compared with what PROGRAM writes of the same files. With --quick
// only the first trait is looked at. Ends with `N passed, M failed` and status 1 where one failed.
import { spawnSync } from 'node:child_process';
import { mkdtempSync, readFileSync, readdirSync, rmSync, writeFileSync } from 'node:fs';
import { tmpdir } from 'node:os';
import { dirname, join, resolve } from 'node:path';
import { fileURLToPath, pathToFileURL } from 'node:url';
import { cutAt } from '../src/script.mjs';
import { Chromium } from './chromium.mjs';
import { Firefox } from './firefox.mjs';

const TOP = resolve(dirname(fileURLToPath(import.meta.url)), '../..');
const [page, program, ...words] = process.argv.slice(2);
const option = (name) => (words.includes(name) ? words[words.indexOf(name) + 1] : null);
const isQuick = words.includes('--quick'), isFirefox = option('--browser') === 'firefox';
const pictures = option('--pictures');
const address = pathToFileURL(resolve(page)).href;
const browser = isFirefox ? new Firefox() : new Chromium();
const quoted = JSON.stringify;
let passed = 0, failed = 0;

// The most operators that one chain of a trait may have.
const LONGEST = 2499;
const FOLDERS = ['library', 'lessons', 'wrong', 'handbook'];
const EDITED = ['Bag', 'Integer', 'Compiler', 'List', 'Truth', 'Binary'];

function see(title, found, wanted) {
  if (found === wanted) passed++;
  else {
    failed++;
    console.log(`${title}: saw ${quoted(found)?.slice(0, 600)} and wanted ${quoted(wanted)?.slice(0, 600)}`);
  }
}

const has = (title, found, part) => see(title, found.includes(part) ? part : found, part);

/** What the program writes of these files with a command. */
function written(command, files) {
  const folder = mkdtempSync(join(tmpdir(), 'larch-files-'));
  for (const [name, text] of files) writeFileSync(join(folder, name), text);
  const names = files.map(([name]) => name);
  const done = spawnSync(resolve(program), [command, ...names], { cwd: folder, maxBuffer: 1 << 28 });
  rmSync(folder, { recursive: true });
  return done.stdout.toString();
}

function filesOf(name) {
  const folder = join(TOP, 'examples', name);
  const names = readdirSync(folder).filter((file) => /\.(?:lsl|lp)$/.test(file));
  return names.map((file) => [file, readFileSync(join(folder, file), 'utf8')]);
}

// ---- What is done in the page.

const AREAS = {
  trait: "document.querySelector('#trait-text textarea')",
  script: "document.querySelector('#script-text textarea')",
};
const TOLD = 'document.documentElement.dataset';
const text = (id) => browser.say(`document.getElementById(${quoted(id)}).textContent`);
const value = (name) => browser.say(`${AREAS[name]}.value`);
const answered = (seconds = 120) => browser.until(`${TOLD}.answered`, seconds);
const settled = () => browser.until(`${TOLD}.settled`, 900);
const forget = () => browser.say(`delete ${TOLD}.answered, delete ${TOLD}.settled, 0`);
const click = (selector) => browser.say(`document.querySelector(${quoted(selector)}).click()`);

/** Presses the button with a text, of those that a selector finds. */
function press(selector, name) {
  return browser.say(`[...document.querySelectorAll(${quoted(selector)})]
    .find((one) => one.textContent.trim().replace(/^. /, '') === ${quoted(name)}).click()`);
}

async function picture(name) {
  if (pictures) await browser.picture(join(pictures, `${isFirefox ? 'firefox-' : ''}${name}.png`));
}

/** Opens the page with nothing kept, and waits for its first report. */
async function fresh(hash = '') {
  await browser.open(address);
  await browser.until(`document.readyState === 'complete' && ${TOLD}.begun`, 300);
  await browser.say('localStorage.clear(), 0');
  await browser.open(address + hash);
  await answered(300);
}

/** Hands files over as if they were chosen from the disk, and waits until all is known of them. */
async function openFiles(files) {
  await forget();
  await browser.say(`(() => {
    const held = new DataTransfer(), pick = document.getElementById('pick');
    for (const [name, text] of ${quoted(files)}) held.items.add(new File([text], name));
    pick.files = held.files;
    pick.dispatchEvent(new Event('change'));
  })()`);
  await settled();
}

/** Types a text at a place, and waits for the report on it: the milliseconds from the keystroke until it is shown. */
async function typed(name, place, put) {
  await forget();
  const took = await browser.say(`new Promise((resolve) => {
    const area = ${AREAS[name]}, begun = performance.now(), look = new MutationObserver(() => {
      look.disconnect();
      resolve(performance.now() - begun);
    });
    look.observe(document.documentElement, { attributes: true, attributeFilter: ['data-reported'] });
    area.focus();
    area.setSelectionRange(${place}, ${place});
    document.execCommand('insertText', false, ${quoted(put)});
  })`);
  await answered();
  return took;
}

/** Moves the cursor of the script to the end of a line, and waits for the goal there. */
async function moveTo(line) {
  await browser.say(`(() => {
    const area = ${AREAS.script}, place = area.value.split('\\n').slice(0, ${line}).join('\\n').length;
    area.focus();
    area.setSelectionRange(place, place);
    area.dispatchEvent(new Event('keyup'));
  })()`);
  const isThere = `document.getElementById('goal').textContent.includes('Behind line ${line} ')`;
  await browser.until(isThere, 30).catch(() => {});
}

/** The report on all files, as the page's dialog shows it. */
async function wholeReport() {
  await browser.until("document.querySelector('#count button')", 900);
  await click('#count button');
  const said = await browser.say("document.querySelector('#dialog pre').textContent");
  await browser.say("document.getElementById('dialog').close()");
  return said;
}

// ---- What is tried.

async function firstVisit() {
  await fresh();
  has('the first trait', await text('summary'), 'nothing is wrong with it; 1 of 3 proved, 1 suspended, 1 refused');
  await picture('first');
  const times = [];
  for (let time = 0; time < (isQuick ? 1 : 5); time++) {
    await browser.open(address);
    await answered();
    times.push(Math.round(Number(await browser.say(`${TOLD}.first`))));
  }
  console.log(`first report, milliseconds from the click: ${times.join(' ')}`);
}

async function edits() {
  const took = await typed('script', (await value('script')).lastIndexOf('z'), 'y %');
  has('the mended script', await text('summary'), '3 of 3 proved');
  console.log(`an edit's report: ${took.toFixed(0)} ms`);
  await typed('trait', 0, '?');
  const said = written('check', [['Sum.lsl', await value('trait')]]);
  const [, line, column, code] = /error (\d+):(\d+) (\S+)/.exec(said);
  has('a wrong trait', await text('summary'), `refused at line ${line}, column ${column}: ${code}`);
  see('its mark', await browser.say("document.querySelector('#trait-text .numbers .error')?.textContent"), line);
  await picture('wrong');
}

/** Follows the first trait's proof line by line: what the page shows is what the program says of the script so far. */
async function follows() {
  await fresh();
  const trait = await value('trait'), script = await value('script');
  for (let line = 1; line <= script.split('\n').length; line++) {
    await moveTo(line);
    const label = line < 5 ? 'imply.1' : 'imply.2';
    const cut = cutAt(script, line, ['imply.1', 'imply.2', 'imply.3']);
    const lines = written('replay', [['Sum.lsl', trait], ['Sum.lp', cut]]).split('\n');
    const said = lines.find((one) => one.startsWith(label));
    const goal = /goals \d+: (.*)$/.exec(said)?.[1] ?? / refused \d+ (\S+)$/.exec(said)?.[1] ?? 'is proved here';
    has(`the goal at line ${line}`, await text('goal'), goal);
    has(`the line of the goal at line ${line}`, await text('goal'), `Behind line ${line} of`);
  }
  await picture('goal');
}

/** The longest chain that a trait may have: the page says what the program says of it, or that the engine ended it. */
async function tooDeep() {
  await fresh();
  const head = 'introduces\n    0: -> N\n    __ + __: N, N -> N\n';
  const chain = `${'0 + '.repeat(LONGEST)}0`;
  const files = [['Deep.lsl', `Deep: trait\n  ${head}  asserts\n    \\forall x: N\n      ${chain} == x\n`]];
  await openFiles(files);
  const isEnded = (await text('parts')).includes('The browser\'s engine ended the call');
  console.log(`a chain of ${LONGEST} operators: ${isEnded ? 'the engine ended the call' : 'the page reports on it'}`);
  const isWell = (await text('summary')).includes('nothing is wrong with it');
  if (!isEnded) see('a long chain', isWell, written('check', files).startsWith('trait Deep\n'));
  await picture('deep');
  await openFiles([['Flat.lsl', 'Flat: trait\n  introduces\n    a: -> N\n']]);
  has('a trait behind it', await text('summary'), 'Flat: nothing is wrong with it');
}

async function examples() {
  for (const folder of FOLDERS) {
    const files = filesOf(folder);
    await fresh();
    await click('#save');
    await press('#dialog button', 'take Sum out of the page');
    await openFiles(files);
    see(`the report on examples/${folder}`, await wholeReport(), written('replay', files));
  }
}

/** Keystrokes while the whole handbook is open. */
async function keystrokes() {
  const all = [];
  for (const stem of EDITED) {
    await forget();
    await press('#list button', stem);
    await answered();
    const times = [];
    for (let time = 0; time < 8; time++) times.push(Math.round(await typed(time % 2 ? 'trait' : 'script', 0, '%\n')));
    all.push(...times);
    console.log(`keystrokes in ${stem}, with the handbook open: ${times.join(' ')} ms`);
  }
  await settled();
  all.sort((one, other) => one - other);
  console.log(`keystrokes: middle ${all[all.length >> 1]} ms, most ${all[all.length - 1]} ms`);
  await picture('handbook');
}

async function sharing() {
  await fresh();
  await typed('script', 0, '% shared\n');
  await click('#share');
  await browser.until("document.querySelector('#dialog input').value.includes('#files=')");
  const link = await browser.say("document.querySelector('#dialog input').value");
  await fresh(new URL(link).hash);
  has('what a link holds', await value('script'), '% shared');
  has('that it is of a link', await text('note'), 'aren\'t kept');
  see('what is kept meanwhile', await browser.say("localStorage.getItem('larch:Sum.lp')"), null);
  await press('#note button', 'Keep them');
  await answered();
  has('what is kept then', await browser.say("localStorage.getItem('larch:Sum.lp') ?? ''"), '% shared');
}

async function keepsFiles() {
  await fresh();
  await typed('script', 0, '% kept\n');
  await browser.open(address);
  await answered();
  has('what is kept', await value('script'), '% kept');
}

/** What Chromium alone is asked for: keys, colours, a small screen. */
async function lookAndKeys() {
  await fresh();
  await browser.press('3', 'Digit3', 1, 51);
  see('Alt+3', await browser.say(`document.activeElement === ${AREAS.script}`), true);
  await browser.press('F8', 'F8', 0, 119);
  const line = `${AREAS.script}.value.slice(0, ${AREAS.script}.selectionStart).split('\\n').length`;
  see('F8', await browser.say(line), 6);
  await browser.colours('dark');
  await browser.size(1280, 800);
  await picture('dark');
  await browser.colours('light');
  await browser.size(390, 720, true);
  await click('[data-view=says]');
  const display = (id) => `getComputedStyle(document.getElementById('${id}')).display`;
  see('a small screen', await browser.say(`${display('says')} + ' ' + ${display('trait')}`), 'block none');
  see('its width', await browser.say('document.documentElement.scrollWidth <= innerWidth'), true);
  await picture('small');
  await browser.size(1280, 800);
}

async function main() {
  const steps = [firstVisit, edits, follows, keepsFiles, sharing, tooDeep];
  if (!isFirefox) steps.push(lookAndKeys);
  if (!isQuick) steps.push(examples, keystrokes);
  if (!isFirefox) {
    await browser.open('about:blank');
    await browser.size(1280, 800);
  }
  for (const step of steps) await step().catch((error) => see(step.name, String(error), 'no error'));
  see('errors of scripts', browser.errors.join('; '), '');
  await browser.close();
  console.log(`${isFirefox ? 'firefox' : 'chromium'}: ${passed} passed, ${failed} failed`);
  process.exit(failed ? 1 : 0);
}

await main();
