// The files of the page, as a folder: their texts by name, and which traits one reaches.

const NAME = /^[A-Za-z0-9_]{1,64}\.(?:lsl|lp)$/;
const PARTS = 'includes|assumes|introduces|asserts|implies|converts';
const REFERRING = new RegExp(`\\b(?:includes|assumes|implies)\\b([^]*?)(?=\\b(?:${PARTS})\\b|$)`, 'g');

/** Whether the program takes a file of this name. */
export const isFileName = (name) => NAME.test(name);

/** The name of a trait's file or script without its ending. */
export const stemOf = (name) => name.replace(/\.\w+$/, '');

const inOrder = (one, other) => (one < other ? -1 : one > other ? 1 : 0);

/** The words behind `includes`, `assumes` and `implies`, which may be names of traits. */
export function referredTo(text) {
  const found = new Set();
  for (const [, region] of text.replace(/%.*/g, '').matchAll(REFERRING))
    for (const [word] of region.matchAll(/\w+/g)) found.add(word);
  return found;
}

export class Folder {
  constructor(files = []) {
    this.texts = new Map(files);
    this.versions = new Map();
    this.version = 0;
    this.references = new Map();
    for (const name of this.texts.keys()) this.touch(name);
  }

  touch(name) {
    this.versions.set(name, ++this.version);
    this.references.delete(name);
  }

  has(name) {
    return this.texts.has(name);
  }

  text(name) {
    return this.texts.get(name) ?? '';
  }

  put(name, text) {
    if (this.texts.get(name) === text) return false;
    this.texts.set(name, text);
    this.touch(name);
    return true;
  }

  drop(name) {
    this.texts.delete(name);
    this.touch(name);
  }

  names() {
    return [...this.texts.keys()].sort(inOrder);
  }

  /** The names before the dot, of traits and of scripts, in their order. */
  stems() {
    return [...new Set(this.names().map(stemOf))].sort(inOrder);
  }

  /** The names of the traits that a trait refers to, and that are there. */
  near(stem) {
    const name = `${stem}.lsl`;
    if (!this.references.has(name)) this.references.set(name, referredTo(this.text(name)));
    return [...this.references.get(name)].filter((word) => word !== stem && this.has(`${word}.lsl`));
  }

  /** The trait files that a trait reaches, its own among them, in their order; none where it isn't there. */
  reached(stem) {
    const found = new Set();
    const visit = (name) => {
      if (found.has(name) || !this.has(`${name}.lsl`)) return;
      found.add(name);
      this.near(name).forEach(visit);
    };
    visit(stem);
    return [...found].map((name) => `${name}.lsl`).sort(inOrder);
  }

  /** What a trait's statements depend on: the files that it reaches, as they stand. */
  theoryKey(stem) {
    return this.reached(stem).map((name) => `${name}:${this.versions.get(name)}`).join(' ');
  }

  /** What the report on a trait depends on: those files and its script. */
  key(stem) {
    const script = `${stem}.lp`;
    return `${this.theoryKey(stem)} ${script}:${this.has(script) ? this.versions.get(script) : 0}`;
  }

  /** These files with their texts, those that are there. */
  pairs(names) {
    return names.filter((name) => this.has(name)).map((name) => [name, this.text(name)]);
  }
}
