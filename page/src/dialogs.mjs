// The dialogs: a new trait, files to save, a link, the handbook, a report, what the page is.
import { isFileName } from './folder.mjs';
import { byId, button, make } from './making.mjs';

const WHERE_TEXTS_ARE = 'The link holds the texts themselves; nothing is sent anywhere.';
const ABOUT_SAVING = 'A session file has all files in one, for this page and for `larch session`. What you type is'
  + ' kept in the browser as well.';
const ABOUT_BOOKS = 'Traits with a proof of each claim. One that you take comes with those that it reaches; it'
  + ' replaces a file of the same name.';
const ABOUT_PAGE = 'larch checks specifications written in the Larch Shared Language, and carries out proof scripts.'
  + ' This page is one file: nothing is installed, and nothing that you type leaves your browser.';
const ABOUT_TRUST = 'It is compiled another way than the program, for WebAssembly: the compiler for that, the heap and'
  + ' streams under it, the page\'s JavaScript and the browser are trusted, and are covered by no proof.'
  + ' docs/PAGE.md of the repository tells more.';
const ABOUT_KEYS = 'Alt+1, 2, 3, 4: list, trait, script, what is said. F8: the next place that is marked. Ctrl+S:'
  + ' save. Tab goes on to the next part.';
const NOT_PROVED = 'The module in this page is compiled of sources that were NOT PROVED when it was made: it is for'
  + ' trying the page.';

const paragraph = (text, attributes = {}) => make('p', attributes, text);
const row = (...buttons) => make('div', { class: 'row' }, buttons);

/** Shows a dialog with a title and parts. Escape closes it, as its last button does. */
export function showDialog(title, ...parts) {
  byId('dialog-title').textContent = title;
  byId('dialog-parts').replaceChildren(...parts);
  const dialog = byId('dialog');
  if (!dialog.open) dialog.showModal();
  (byId('dialog-parts').querySelector('input, button') ?? dialog).focus();
}

/** A button that closes the dialog and does something. */
function choice(text, act, attributes = {}) {
  return button(text, () => {
    byId('dialog').close();
    act();
  }, attributes);
}

const beginning = (name) => `${name}: trait\n  introduces\n    \n`;

/** Asks for the name of a new trait. */
export function showNew(folder, begin) {
  const name = make('input', { type: 'text', 'aria-label': 'Name of the trait', maxlength: 64, placeholder: 'Name' });
  const told = paragraph('Letters, digits and _.', { class: 'quiet', role: 'status' });
  const done = () => {
    const stem = name.value.trim();
    if (!isFileName(`${stem}.lsl`)) told.textContent = 'A name has 1 to 64 letters, digits and _.';
    else if (folder.has(`${stem}.lsl`)) told.textContent = `There is a trait ${stem} already.`;
    else {
      byId('dialog').close();
      begin(stem, beginning(stem));
    }
  };
  name.addEventListener('keydown', (event) => {
    if (event.key !== 'Enter') return;
    event.preventDefault();
    done();
  });
  showDialog('A new trait', name, told, row(button('Begin it', done)));
}

/** The choices of what to save to the disk: texts of buttons, and what they do. */
export function showSave(choices) {
  const buttons = choices.map(([text, act]) => choice(text, act));
  showDialog('Save to the disk', row(...buttons), paragraph(ABOUT_SAVING, { class: 'quiet' }));
}

async function copy(input, told) {
  try {
    await navigator.clipboard.writeText(input.value);
    told.textContent = 'It is copied.';
  } catch {
    input.select();
    told.textContent = document.execCommand('copy') ? 'It is copied.' : 'It is marked: copy it by Ctrl+C.';
  }
}

/** A link that holds files, ready to be copied: each choice is a text and what makes the link. */
export function showLink(choices) {
  const input = make('input', { type: 'text', readonly: true, 'aria-label': 'Link', onfocus: () => input.select() });
  const told = paragraph(WHERE_TEXTS_ARE, { class: 'quiet', role: 'status' });
  const fill = async (made) => {
    input.value = await made();
    input.select();
    told.textContent = `${input.value.length} characters. ${WHERE_TEXTS_ARE}`;
  };
  const buttons = choices.map(([text, made]) => button(text, () => fill(made)));
  showDialog('A link with these files', row(...buttons), input, told, row(button('Copy', () => copy(input, told))));
  fill(choices[0][1]);
}

/** The handbook: all of it, or a trait with what it reaches. */
export function showHandbook({ about }, take, takeAll) {
  const list = make('ul', { class: 'choices' });
  const find = make('input', { type: 'search', placeholder: 'find a trait', 'aria-label': 'Find in the handbook' });
  const fill = () => {
    const word = find.value.toLowerCase();
    const found = Object.entries(about).filter((entry) => entry.join(' ').toLowerCase().includes(word));
    list.replaceChildren(...found.map(([name, use]) =>
      make('li', {}, choice(name, () => take(name), { class: 'link' }), ` ${use}`)));
  };
  find.addEventListener('input', fill);
  fill();
  showDialog('The handbook', paragraph(ABOUT_BOOKS), row(choice('Take all of it', takeAll)), find, list);
}

/** A text of the program, to be read or saved. */
export function showText(title, text, act) {
  showDialog(title, make('pre', {}, text), row(button('Save', act)));
}

/** Asks whether to go on. */
export function showQuestion(title, text, yes, act) {
  showDialog(title, paragraph(text), row(choice(yes, act)));
}

/** What the page is, and what is claimed of it. */
export function showAbout({ proof, stamp }, hasDerive) {
  const proved = 'The module in this page is compiled of the same proved code as the program larch: of its source the'
    + ` toolchain said "${proof}".`;
  const absent = `${hasDerive ? '' : 'derivations of duties, and '}the facts at the cursor`;
  showDialog('About this page', paragraph(ABOUT_PAGE), paragraph(proof ? proved : NOT_PROVED), paragraph(ABOUT_TRUST),
    paragraph(`What needs commands that this program doesn't have is left out: ${absent}.`),
    make('h3', {}, 'Keys'), paragraph(ABOUT_KEYS), paragraph(`Sources ${stamp}`, { class: 'quiet' }));
}
