// Colours: the grammars of `editors/vscode/syntaxes`, which are made of editors/words.txt, applied line by line.

/** What a scope of a grammar is called in the page's style sheet, by its first words. */
const CLASSES = [
  ['comment', 'comment'], ['keyword.control.choice', 'choice'], ['keyword.control', 'part'],
  ['keyword.other', 'clause'], ['keyword.operator', 'fixed'], ['constant', 'builtin'], ['support.type', 'sort'],
  ['entity.name.function', 'symbol'], ['markup', 'mark'], ['punctuation', 'marker'],
];

const classOf = (scope = '') => (CLASSES.find(([begin]) => scope.startsWith(begin)) ?? [])[1];

/** A grammar's patterns as regular expressions, each with the class of its whole and of its parts. */
export function rulesOf(grammar) {
  return grammar.patterns.filter((pattern) => pattern.match).map((pattern) => ({
    match: new RegExp(pattern.match, 'y'),
    whole: classOf(pattern.name),
    parts: Object.entries(pattern.captures ?? {}).map(([part, { name }]) => [Number(part), classOf(name)]),
  }));
}

/** The pieces of a line: each a text with its class, or none. */
export function piecesOf(line, rules) {
  const pieces = [];
  let plain = '';
  const add = (text, kind) => {
    if (!kind) plain += text;
    else {
      if (plain) pieces.push([plain, undefined]);
      plain = '';
      pieces.push([text, kind]);
    }
  };
  for (let at = 0; at < line.length;) {
    const rule = rules.find(({ match }) => {
      match.lastIndex = at;
      return match.test(line) && match.lastIndex > at;
    });
    if (!rule) {
      // A word is taken whole, so that no rule begins inside of it.
      const word = /^\w+|^[^]/u.exec(line.slice(at))[0];
      add(word);
      at += word.length;
      continue;
    }
    rule.match.lastIndex = at;
    const found = rule.match.exec(line);
    if (rule.parts.length) {
      let from = at;
      for (const [part, kind] of rule.parts) {
        const start = line.indexOf(found[part], from);
        add(line.slice(from, start));
        if (found[part]) add(found[part], kind);
        from = start + found[part].length;
      }
      add(line.slice(from, at + found[0].length));
    } else add(found[0], rule.whole);
    at += found[0].length;
  }
  if (plain) pieces.push([plain, undefined]);
  return pieces;
}
