// The module: one call of the program, from words, files and a standard input to what it writes and its status.

/** An instance whose memory has grown past this is let go after its call. */
const MOST_KEPT_BYTES = 256 * 1024 * 1024;

/** What an engine can't end: its stack or its memory is used up. */
export class CutOff extends Error {}

/** The bytes of a request: `page/host.c` says what stands where. */
export function requestOf({ words, files = [], input = '' }) {
  const encoder = new TextEncoder();
  const encoded = (text) => (typeof text === 'string' ? encoder.encode(text) : text);
  const parts = [];
  const number = (count) => parts.push(new Uint8Array([count, count >>> 8, count >>> 16, count >>> 24]));
  const text = (said) => {
    const bytes = encoded(said);
    number(bytes.length);
    parts.push(bytes);
  };
  number(words.length);
  words.forEach(text);
  number(files.length);
  for (const [name, held] of files) {
    text(name);
    text(held);
  }
  text(input);
  const request = new Uint8Array(parts.reduce((sum, part) => sum + part.length, 0));
  let at = 0;
  for (const part of parts) {
    request.set(part, at);
    at += part.length;
  }
  return request;
}

export class Engine {
  constructor(module) {
    this.module = module;
    this.begin();
  }

  /** A fresh instance: nothing of an earlier call is left. */
  begin() {
    this.calls = new WebAssembly.Instance(this.module, {}).exports;
  }

  bytes(address, length) {
    return new Uint8Array(this.calls.memory.buffer, Number(address), Number(length));
  }

  /** Runs the program once. Where the engine ends it, memory is left half written, and a fresh instance begins. */
  run(call) {
    const request = requestOf(call);
    try {
      const room = this.calls.larch_room(BigInt(request.length));
      if (room === 0n) throw new CutOff('no memory for the texts');
      this.bytes(room, request.length).set(request);
      const status = this.calls.larch_run(room);
      const said = this.bytes(this.calls.larch_said(), this.calls.larch_said_length()).slice();
      if (this.calls.memory.buffer.byteLength > MOST_KEPT_BYTES) this.begin();
      return { status, said };
    } catch (error) {
      this.begin();
      throw error instanceof CutOff ? error : new CutOff(String(error));
    }
  }
}
