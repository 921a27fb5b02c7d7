// Places in texts: the program counts bytes of UTF-8, an editor counts units of UTF-16.

/** How many bytes of UTF-8 a code point has. */
function bytesOf(point) {
  return point < 0x80 ? 1 : point < 0x800 ? 2 : point < 0x10000 ? 3 : 4;
}

/** Where a line begins, counted from 1; the end of the text where there is no such line. */
export function lineStart(text, line) {
  let start = 0;
  for (let number = 1; number < line; number++) {
    const end = text.indexOf('\n', start);
    if (end < 0) return text.length;
    start = end + 1;
  }
  return start;
}

/** The place of a line and a column of bytes, both from 1; a column past the line's end is its end. */
export function placeOf(text, line, column) {
  let place = lineStart(text, line);
  for (let bytes = 1; place < text.length && text[place] !== '\n' && bytes < column;) {
    const point = text.codePointAt(place);
    bytes += bytesOf(point);
    place += point < 0x10000 ? 1 : 2;
  }
  return place;
}

/** The number of the line in which a place lies, from 1. */
export function lineAt(text, place) {
  let line = 1;
  for (let end = text.indexOf('\n'); end >= 0 && end < place; end = text.indexOf('\n', end + 1)) line++;
  return line;
}

/** Where the token at a place ends: a word, a run of symbols, or one character; at a line's end the place itself. */
export function tokenEnd(text, place) {
  const token = /^(?:\\?[A-Za-z0-9_']+|[-!#$&*+<>=?@^|~/\\]+|[^\n])/.exec(text.slice(place, place + 200));
  return token ? place + token[0].length : place;
}
