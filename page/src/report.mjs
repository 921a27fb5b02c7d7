// What the program writes, read back: reports, and lists of what a trait consists of.

const DUTY = /^((?:assume|imply|convert)\.\d+) (?:(proved)|suspended goals (\d+): (.*)|refused (\d+) (\S+))$/;

/** One line of a report behind its trait's. */
function readLine(line) {
  const script = /^script (\d+) (\S+)$/.exec(line);
  if (script) return { line: Number(script[1]), code: script[2] };
  const [, label, proved, goals, goal, at, code] = DUTY.exec(line) ?? [];
  if (!label) return null;
  if (proved) return { label, state: 'proved' };
  return goals ? { label, state: 'suspended', goals: Number(goals), goal }
    : { label, state: 'refused', line: Number(at), code };
}

/** The parts of a report by their traits: `error`, `duties`, `wrong` lines of the script, and the lines themselves. */
export function readReport(text) {
  const parts = new Map();
  let part = null;
  for (const line of text.split('\n')) {
    const head = /^(?:trait (\w+)(?: error (\d+):(\d+) (\S+))?|script (\w+) without trait)$/.exec(line);
    if (head) {
      part = { lines: [line], error: null, duties: [], wrong: [], isAlone: Boolean(head[5]) };
      if (head[4]) part.error = { line: Number(head[2]), column: Number(head[3]), code: head[4] };
      parts.set(head[1] ?? head[5], part);
      continue;
    }
    const read = part && readLine(line);
    if (!read) continue;
    part.lines.push(line);
    (read.label ? part.duties : part.wrong).push(read);
  }
  return parts;
}

/** The report on all traits, of the parts on each: what the program writes of the whole folder. */
export function wholeReport(parts) {
  const traits = parts.filter((part) => !part.isAlone), alone = parts.filter((part) => part.isAlone);
  const duties = traits.flatMap((part) => part.duties);
  const count = (state) => `${duties.filter((duty) => duty.state === state).length} ${state}`;
  const errors = alone.length + traits.reduce((sum, part) => sum + (part.error ? 1 : 0) + part.wrong.length, 0);
  const lines = [...traits, ...alone].flatMap((part) => part.lines);
  const states = ['proved', 'suspended', 'refused'].map(count).join(', ');
  return [...lines, `total ${traits.length} traits, ${errors} errors, ${states}`, 'end', ''].join('\n');
}

/** What `obligations` writes of one trait: statements of duties by their labels, and the other lines in their order. */
export function readObligations(text, stem) {
  const statements = new Map(), theory = [];
  let isHere = false;
  for (const line of text.split('\n')) {
    if (/^trait \w+/.test(line) || line === 'end') {
      isHere = line === `trait ${stem}`;
      continue;
    }
    if (!isHere) continue;
    const duty = /^((?:assume|imply|convert)\.\d+) (.*)$/.exec(line);
    if (duty) statements.set(duty[1], duty[2]);
    else if (line) theory.push(line);
  }
  return { statements, theory };
}
