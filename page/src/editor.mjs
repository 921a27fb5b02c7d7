// A text that one writes: a text area, whose colours and line numbers are painted behind and beside it.
import { make } from './making.mjs';
import { piecesOf } from './paint.mjs';
import { lineAt, placeOf, tokenEnd } from './text.mjs';

/** Longer texts aren't coloured. */
const MOST_COLOURED = 200000;
const AS_WRITTEN = { spellcheck: 'false', autocapitalize: 'off', autocomplete: 'off', wrap: 'off' };

export class Editor {
  /** `told` is called with the text at each change of it, `moved` with the line at each move of the cursor. */
  constructor(place, label, { told, moved }) {
    this.area = make('textarea', { ...AS_WRITTEN, 'aria-label': label });
    this.paint = make('pre', { class: 'paint', 'aria-hidden': 'true' });
    this.numbers = make('div', { class: 'numbers', 'aria-hidden': 'true' });
    this.rules = [];
    this.marks = [];
    this.painted = [];
    this.line = 1;
    place.append(this.numbers, make('div', { class: 'sheet' }, this.paint, this.area));
    this.area.addEventListener('input', () => {
      this.line = lineAt(this.text, this.area.selectionStart);
      this.show();
      told(this.text);
    });
    this.area.addEventListener('scroll', () => this.follow());
    this.area.addEventListener('keydown', (event) => this.indent(event));
    // Engines tell of a moved cursor in different ways.
    const look = () => document.activeElement === this.area && this.look(moved);
    for (const event of ['selectionchange', 'keyup', 'click', 'focus']) this.area.addEventListener(event, look);
    document.addEventListener('selectionchange', look);
  }

  get text() {
    return this.area.value;
  }

  look(moved) {
    const line = lineAt(this.text, this.area.selectionStart);
    if (line === this.line) return;
    this.line = line;
    this.showNumbers();
    moved(line);
  }

  /** Shows another text, with the cursor at its beginning. */
  open(text, rules) {
    this.rules = rules;
    this.marks = [];
    this.painted = [];
    this.line = 1;
    this.area.value = text;
    this.area.setSelectionRange(0, 0);
    this.area.scrollTop = this.area.scrollLeft = 0;
    this.show();
  }

  /** Marks lines: each mark has a line, perhaps a column of bytes, a kind and a title. */
  mark(marks) {
    this.marks = marks;
    this.show();
  }

  /** Sets the cursor to a place and shows it. */
  go(line, column = 1) {
    const place = placeOf(this.text, line, column);
    this.area.focus();
    this.area.setSelectionRange(place, place);
    const height = parseFloat(getComputedStyle(this.area).lineHeight);
    const top = (line - 1) * height;
    if (top < this.area.scrollTop || top > this.area.scrollTop + this.area.clientHeight - 2 * height)
      this.area.scrollTop = Math.max(0, top - this.area.clientHeight / 2);
  }

  /** Puts a text at the end, with the cursor behind it, as if it were typed. */
  append(text) {
    this.area.focus();
    this.area.setSelectionRange(this.text.length, this.text.length);
    this.insert(text);
    this.area.scrollTop = this.area.scrollHeight;
  }

  // A new line begins below the first character of the one before it.
  indent(event) {
    if (event.key !== 'Enter' || event.ctrlKey || event.metaKey || event.altKey || event.isComposing) return;
    const before = this.text.slice(0, this.area.selectionStart);
    const blanks = /(?:^|\n)([ \t]*)[^\n]*$/.exec(before)[1];
    if (!blanks) return;
    event.preventDefault();
    this.insert(`\n${blanks}`);
  }

  // What is put in so can be undone; where the engine lacks that, the text is set.
  insert(text) {
    if (document.execCommand('insertText', false, text)) return;
    this.area.setRangeText(text, this.area.selectionStart, this.area.selectionEnd, 'end');
    this.area.dispatchEvent(new Event('input'));
  }

  follow() {
    this.paint.style.transform = `translate(${-this.area.scrollLeft}px, ${-this.area.scrollTop}px)`;
    this.numbers.style.setProperty('--top', `${-this.area.scrollTop}px`);
  }

  // Only lines that changed are painted anew.
  show() {
    const isLong = this.text.length > MOST_COLOURED, lines = this.text.split('\n');
    this.area.parentElement.classList.toggle('plain', isLong);
    lines.forEach((line, index) => {
      const marks = isLong ? [] : this.marks.filter((mark) => mark.line === index + 1 && mark.column);
      const key = `${marks.map((mark) => `${mark.column}${mark.kind}`)}:${line}`;
      if (this.painted[index] === key) return;
      this.painted[index] = key;
      const row = this.paint.children[index] ?? this.paint.appendChild(make('div'));
      row.replaceChildren(...(isLong ? [] : this.row(line, marks)));
    });
    this.painted.length = lines.length;
    while (this.paint.children.length > lines.length) this.paint.lastChild.remove();
    this.showNumbers(lines.length);
    this.follow();
  }

  row(line, marks) {
    const pieces = piecesOf(line, this.rules).map(([text, kind]) => make('span', { class: kind }, text));
    return [...marks.slice(0, 1).map((mark) => this.underline(line, mark)), ...pieces, '\n'];
  }

  /** The token at a mark, underlined, behind a copy of what stands before it. */
  underline(line, mark) {
    const from = placeOf(line, 1, mark.column), token = line.slice(from, Math.max(tokenEnd(line, from), from + 1));
    return make('span', { class: `under ${mark.kind}` }, make('span', { class: 'before' }, line.slice(0, from)),
      make('span', { class: 'token' }, token || ' '));
  }

  showNumbers(count = this.numbers.children.length) {
    const { children } = this.numbers;
    while (children.length > count) this.numbers.lastChild.remove();
    while (children.length < count) this.numbers.append(make('div', {}, String(children.length + 1)));
    const kinds = new Map(this.marks.map((mark) => [mark.line, mark]));
    [...children].forEach((number, index) => {
      const mark = kinds.get(index + 1);
      const wanted = [mark?.kind, index + 1 === this.line && 'current'].filter(Boolean).join(' ');
      if (number.className !== wanted) number.className = wanted;
      if ((number.title || '') !== (mark?.title ?? '')) number.title = mark?.title ?? '';
    });
  }
}
