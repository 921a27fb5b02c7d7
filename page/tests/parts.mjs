// Tests the page's scripts without a browser: parts.mjs [PROGRAM]. With PROGRAM the questions of the page are asked of
// it, and the reports that the page puts together of its answers are compared with the program's own on whole folders.
import { spawnSync } from 'node:child_process';
import { mkdtempSync, readFileSync, readdirSync, rmSync, writeFileSync } from 'node:fs';
import { tmpdir } from 'node:os';
import { dirname, join, resolve } from 'node:path';
import { fileURLToPath } from 'node:url';
import { askGoal, askObligations, askReport } from '../src/asking.mjs';
import { Folder, referredTo } from '../src/folder.mjs';
import { bytesOf, filesOfLink, filesOfSession, linkOf, sessionOf } from '../src/keeping.mjs';
import { piecesOf, rulesOf } from '../src/paint.mjs';
import { wholeReport } from '../src/report.mjs';
import { blockAt, blocksOf, cutAt } from '../src/script.mjs';
import { lineAt, placeOf, tokenEnd } from '../src/text.mjs';

const TOP = resolve(dirname(fileURLToPath(import.meta.url)), '../..');
const program = process.argv[2];
let passed = 0, failed = 0;

function see(title, found, wanted) {
  const [one, other] = [found, wanted].map((value) => JSON.stringify(value));
  if (one === other) passed++;
  else {
    failed++;
    console.log(`${title}: saw ${one?.slice(0, 400)} and wanted ${other?.slice(0, 400)}`);
  }
}

function places() {
  const text = 'a\n\u00e9\u{1d400}x = y\n';
  see('a column of bytes', placeOf(text, 2, 7), text.indexOf('x'));
  see('a column past the line', placeOf(text, 1, 9), 1);
  see('a line past the text', placeOf('a', 3, 1), 1);
  see('a line', lineAt(text, text.indexOf('y')), 2);
  see('the end of a token', ['ab+', '/\\ x', '\\forall x', '('].map((it) => tokenEnd(it, 0)), [2, 2, 7, 1]);
}

function scripts() {
  const text = 'declare variable x: N\nduty imply.1\n  a\n  b\nqed\nduty imply . 2 % c\n  d\nduty assume.1\n  e';
  const blocks = blocksOf(text).map(({ label, begin, end }) => `${label} ${begin} ${end}`);
  see('the blocks', blocks, ['imply.1 2 6', 'imply.2 6 8', 'assume.1 8 10']);
  see('no block', blockAt(text, 1), null);
  const cut = 'declare variable x: N\nduty imply.1\n  a\n\n\n\n\nduty assume.1\n  e';
  see('a script cut', cutAt(text, 3, ['assume.1', 'imply.1', 'imply.2']), cut);
}

function references() {
  const text = 'T: trait\n  includes A (x for y), B % C\n  assumes D\n  introduces\n    e: -> F\n  implies\n    G\n';
  const found = referredTo(text);
  see('what is referred to', ['A', 'B', 'C', 'D', 'F', 'G'].filter((word) => found.has(word)), ['A', 'B', 'D', 'G']);
  const folder = new Folder([['T.lsl', text], ['A.lsl', 'A: trait includes B'], ['B.lsl', 'B: trait'], ['F.lsl', '']]);
  see('what is reached', folder.reached('T'), ['A.lsl', 'B.lsl', 'T.lsl']);
  const key = folder.key('T');
  folder.put('F.lsl', 'F: trait');
  see('a key that stays', folder.key('T'), key);
  folder.put('B.lsl', 'B: trait ');
  see('a key that changes', folder.key('T') === key, false);
}

async function kept() {
  const files = [['A.lsl', 'A: trait\n% \u00e9\n'], ['A.lp', '']];
  see('a link', await filesOfLink(await linkOf(files, 'A')), { shown: 'A', files });
  see('no link', [await filesOfLink('#files=none'), await filesOfLink('')], [null, null]);
  see('a session', filesOfSession(new TextEncoder().encode(sessionOf(files))), files);
  see('no session', filesOfSession(new TextEncoder().encode('puts\n')), null);
  see('both alphabets', [...bytesOf('-_8=')], [...bytesOf('+/8')]);
}

function colours() {
  const grammar = JSON.parse(readFileSync(join(TOP, 'editors/vscode/syntaxes/lp.tmLanguage.json'), 'utf8'));
  const pieces = piecesOf('  resume by induction on x0 % by', rulesOf(grammar));
  see('the text of the pieces', pieces.map(([text]) => text).join(''), '  resume by induction on x0 % by');
  const kinds = pieces.map(([, kind]) => kind).filter(Boolean);
  see('their kinds', kinds, ['part', 'clause', 'clause', 'clause', 'comment']);
  see('a mark', piecesOf('  <> basis', rulesOf(grammar)), [['  ', undefined], ['<>', 'mark'], [' basis', 'comment']]);
}

/** A call of the program in a folder of its own. */
async function ask({ words, files = [] }) {
  const folder = mkdtempSync(join(tmpdir(), 'larch-files-'));
  files.forEach(([name, text]) => writeFileSync(join(folder, name), text));
  const done = spawnSync(resolve(program), words, { cwd: folder, maxBuffer: 1 << 28 });
  rmSync(folder, { recursive: true });
  return { status: done.status, said: done.stdout.toString() };
}

async function reports() {
  for (const name of ['library', 'lessons', 'wrong', 'handbook']) {
    const path = join(TOP, 'examples', name);
    const names = readdirSync(path).filter((file) => /\.(?:lsl|lp)$/.test(file));
    const folder = new Folder(names.map((file) => [file, readFileSync(join(path, file), 'utf8')]));
    const parts = [];
    for (const stem of folder.stems()) parts.push(await askReport(ask, folder, stem));
    const whole = await ask({ words: ['replay', ...folder.names()], files: folder.pairs(folder.names()) });
    see(`the report on examples/${name}`, wholeReport(parts), whole.said);
  }
}

async function goals() {
  const folder = new Folder();
  folder.put('T.lsl', 'T: trait\n  introduces\n    f: Bool -> Bool\n  asserts\n    f(true);\n    f(false)\n'
    + '  implies\n    \\forall b: Bool\n      f(b)\n');
  folder.put('T.lp', 'duty imply.1\n  resume by cases c\n  resume by cases b\nqed\n');
  const at = (line) => askGoal(ask, folder, 'T', line, ['imply.1']);
  see('the goal at the duty', (await at(1)).goal, 'f(b)');
  const refused = await at(2);
  see('a refused line', [refused.state, refused.code, refused.before.goal], ['refused', 'NO-READING', 'f(b)']);
  folder.put('T.lp', 'duty imply.1\n  resume by cases b\nqed\n');
  see('a proved duty', (await at(2)).state, 'proved');
  see('no goal', await askGoal(ask, folder, 'T', 1, []), null);
  see('a statement', [...(await askObligations(ask, folder, 'T')).statements], [['imply.1', 'f(b)']]);
}

places();
scripts();
references();
await kept();
colours();
if (program) {
  await goals();
  await reports();
}
console.log(`parts: ${passed} passed, ${failed} failed`);
process.exit(failed ? 1 : 0);
