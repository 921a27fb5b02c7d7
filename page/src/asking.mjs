// What the page asks the program: each question is one call over the files that a trait reaches.
import { readObligations, readReport } from './report.mjs';
import { blockAt, cutAt } from './script.mjs';

/** A call of the program with a command, its words and files. */
const callOf = (command, words, files) => ({ words: [command, ...words, ...files.map(([name]) => name)], files });

/** The files of a question about a trait: what it reaches, and a script of its own. */
function filesOf(folder, stem, script) {
  const files = folder.pairs(folder.reached(stem));
  return script === null ? files : [...files, [`${stem}.lp`, script]];
}

const scriptOf = (folder, stem) => (folder.has(`${stem}.lp`) ? folder.text(`${stem}.lp`) : null);

/** The report on one trait: its part, or `trouble` where there is none. */
export async function askReport(ask, folder, stem) {
  const answer = await ask(callOf('replay', [], filesOf(folder, stem, scriptOf(folder, stem))));
  const part = answer.cut === undefined ? readReport(answer.said).get(stem) : null;
  return part ?? { trouble: answer, lines: [], error: null, duties: [], wrong: [] };
}

/** The statements and duties of one trait, as `obligations` writes them. */
export async function askObligations(ask, folder, stem) {
  const answer = await ask(callOf('obligations', [], filesOf(folder, stem, null)));
  return answer.cut === undefined ? readObligations(answer.said, stem) : { statements: new Map(), theory: [] };
}

/** What stands at the end of a line of a script: the line of its duty in the report on the script up to there. */
async function askAfter(ask, folder, stem, line, labels, label) {
  const script = cutAt(folder.text(`${stem}.lp`), line, labels);
  const answer = await ask(callOf('replay', [], filesOf(folder, stem, script)));
  if (answer.cut !== undefined) return { label, state: 'cut', why: answer.cut };
  return readReport(answer.said).get(stem)?.duties.find((duty) => duty.label === label) ?? null;
}

/**
 * The goal at a line of the script, by replaying it up to there; null where the line is in no block of a duty. Where
 * the line itself is refused, `before` is what stood in front of it.
 */
export async function askGoal(ask, folder, stem, line, labels) {
  const block = blockAt(folder.text(`${stem}.lp`), line);
  if (!block || !labels.includes(block.label)) return null;
  const after = await askAfter(ask, folder, stem, line, labels, block.label);
  if (after?.state !== 'refused' || after.line !== line || line <= block.begin) return after && { ...after, at: line };
  return { ...after, at: line, before: await askAfter(ask, folder, stem, line - 1, labels, block.label) };
}

/** Whether the program at hand has `derive`: a program that doesn't know the word says so by status 2. */
export async function hasDerive(ask) {
  const answer = await ask({ words: ['derive', 'None', 'imply.1', 'None.lsl'] });
  return answer.cut === undefined && answer.status !== 2;
}

/** The derivation of a duty that is proved. */
export function askDerivation(ask, folder, stem, label) {
  return ask(callOf('derive', [stem, label], filesOf(folder, stem, scriptOf(folder, stem))));
}
