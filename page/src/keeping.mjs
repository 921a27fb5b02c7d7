// Where files are kept: in the browser's storage, in a link, on the disk.
import { isFileName } from './folder.mjs';

const PREFIX = 'larch:';

/** The browser's storage, if the page may use it: each file under a name of its own. */
export class Kept {
  constructor(storage) {
    this.storage = storage;
  }

  /** Runs `act` on the storage; false where there is none or it is full. */
  tries(act) {
    try {
      act(this.storage);
      return true;
    } catch {
      return false;
    }
  }

  files() {
    const found = [];
    this.tries((storage) => {
      for (let index = 0; index < storage.length; index++) {
        const key = storage.key(index), name = key.slice(PREFIX.length);
        if (key.startsWith(PREFIX) && isFileName(name)) found.push([name, storage.getItem(key)]);
      }
    });
    return found;
  }

  put(name, text) {
    return this.tries((storage) => storage.setItem(PREFIX + name, text));
  }

  drop(name) {
    return this.tries((storage) => storage.removeItem(PREFIX + name));
  }

  /** A setting of the page, as the colours. */
  setting(name) {
    let found = null;
    this.tries((storage) => {
      found = storage.getItem(`${PREFIX}.${name}`);
    });
    return found;
  }

  set(name, value) {
    return this.tries((storage) => storage.setItem(`${PREFIX}.${name}`, value));
  }
}

async function through(bytes, stream) {
  return new Uint8Array(await new Response(new Blob([bytes]).stream().pipeThrough(stream)).arrayBuffer());
}

/** The bytes of a text of base64, in either alphabet. */
export function bytesOf(text) {
  const letters = atob(text.trim().replace(/-/g, '+').replace(/_/g, '/')), bytes = new Uint8Array(letters.length);
  for (let at = 0; at < letters.length; at++) bytes[at] = letters.charCodeAt(at);
  return bytes;
}

function textOf(bytes) {
  let letters = '';
  for (let at = 0; at < bytes.length; at += 8192) letters += String.fromCharCode(...bytes.subarray(at, at + 8192));
  return btoa(letters).replace(/\+/g, '-').replace(/\//g, '_').replace(/=+$/, '');
}

/** What was packed by gzip and written in base64. */
export const unzipped = (text) => through(bytesOf(text), new DecompressionStream('gzip'));

/** What stands behind the `#` of a link that holds files, one of which is shown. */
export async function linkOf(files, shown) {
  const text = JSON.stringify({ shown, files: Object.fromEntries(files) });
  return `#files=${textOf(await through(new TextEncoder().encode(text), new CompressionStream('deflate-raw')))}`;
}

/** The files of a link, or null where it holds none. */
export async function filesOfLink(hash) {
  const packed = /^#files=([\w-]+)$/.exec(hash)?.[1];
  if (!packed) return null;
  try {
    const text = new TextDecoder().decode(await through(bytesOf(packed), new DecompressionStream('deflate-raw')));
    const { shown, files } = JSON.parse(text);
    const pairs = Object.entries(files).filter(([name, held]) => isFileName(name) && typeof held === 'string');
    return pairs.length ? { shown: String(shown), files: pairs } : null;
  } catch {
    return null;
  }
}

/** Files as the input of `larch session`, which puts each and asks for the report. */
export function sessionOf(files) {
  const encoder = new TextEncoder();
  return `${files.map(([name, text]) => `put ${name} ${encoder.encode(text).length}\n${text}`).join('')}report\n`;
}

/** The files that such an input puts, each as it was put last; null where a line is none that the page writes. */
export function filesOfSession(bytes) {
  const files = new Map(), decoder = new TextDecoder();
  for (let at = 0; at < bytes.length;) {
    const end = bytes.indexOf(10, at), stop = end < 0 ? bytes.length : end;
    const line = decoder.decode(bytes.subarray(at, stop));
    const put = /^put (\S+) (\d{1,8})$/.exec(line);
    at = stop + 1;
    if (put && isFileName(put[1])) {
      files.set(put[1], decoder.decode(bytes.subarray(at, at + Number(put[2]))));
      at += Number(put[2]);
    } else if (!/^(?:report|quit)?$/.test(line)) return null;
  }
  return [...files];
}

/** The text of a file of the disk, with lines that end as the page's do; null where it is no text of UTF-8. */
export function textOfFile(bytes) {
  try {
    return new TextDecoder('utf-8', { fatal: true }).decode(bytes).replace(/\r\n?/g, '\n');
  } catch {
    return null;
  }
}

/** Hands a text to the browser as a file to save. */
export function save(name, text) {
  const link = document.createElement('a');
  link.href = URL.createObjectURL(new Blob([text], { type: 'text/plain' }));
  link.download = name;
  link.click();
  setTimeout(() => URL.revokeObjectURL(link.href), 10000);
}
