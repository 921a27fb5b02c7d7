// Files of the page on the disk, in links and in the handbook: what is taken in, and what is handed out.
import { Folder, isFileName, stemOf } from './folder.mjs';
import { filesOfSession, linkOf, save, sessionOf, textOfFile, unzipped } from './keeping.mjs';
import { byId } from './making.mjs';

/** The files that one of the disk has: itself, or what a session puts; null where it is none of these. */
async function filesIn(file) {
  const bytes = new Uint8Array(await file.arrayBuffer()), text = textOfFile(bytes);
  if (text === null) return null;
  if (file.name.endsWith('.session')) return filesOfSession(bytes);
  return isFileName(file.name) ? [[file.name, text]] : null;
}

/** The files of what was chosen on the disk, and the names of those that are none. */
export async function openFiles(picked) {
  const files = [], refused = [];
  for (const file of picked) {
    const found = await filesIn(file);
    if (found) files.push(...found);
    else refused.push(file.name);
  }
  return { files, refused };
}

/** All files of a folder. */
export const allFiles = (folder) => folder.pairs(folder.names());

/** What can be saved: each a text for a button, and what saves it. */
export function savings(folder, stem) {
  const own = [`${stem}.lsl`, `${stem}.lp`].filter((name) => folder.has(name));
  return [...own.map((name) => [name, () => save(name, folder.text(name))]),
    ['all files, as a session', () => save('larch.session', sessionOf(allFiles(folder)))]];
}

/** The page's address without what stands behind its `#`. */
export const address = () => location.href.replace(/#.*$/, '');

/** The links that can be made: each a text for a button, and what makes it. */
export function links(folder, stem) {
  const near = () => folder.pairs([...folder.reached(stem), `${stem}.lp`]);
  const made = (files) => async () => address() + await linkOf(files(), stem);
  return [[`${stem} with what it reaches`, made(near)], ['all files', made(() => allFiles(folder))]];
}

let books = null;

/** The handbook, which is unpacked once: `about` each trait, and its `folder`. */
export async function handbook() {
  if (!books) {
    const { files, about } = JSON.parse(new TextDecoder().decode(await unzipped(byId('books').textContent)));
    books = { about, folder: new Folder(Object.entries(files)) };
  }
  return books;
}

/** A trait of the handbook with all that it reaches, and their scripts. */
export function chapter({ folder }, stem) {
  return folder.pairs(folder.reached(stem).flatMap((name) => [name, `${stemOf(name)}.lp`]));
}
