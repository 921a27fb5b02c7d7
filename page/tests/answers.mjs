// Answers calls by the module: answers.mjs MODULE CALLS ANSWERS. CALLS and ANSWERS have a line of JSON for each call;
// its texts are in base64. An answer has `status` and `said`, or `cut` where the engine ended the call.
import { readFileSync, writeFileSync } from 'node:fs';
import { Engine } from '../src/engine.mjs';

const [, , module, calls, answers] = process.argv;
const engine = new Engine(new WebAssembly.Module(readFileSync(module)));
const bytes = (text) => new Uint8Array(Buffer.from(text, 'base64'));

function answer({ words, files, input }) {
  try {
    const pairs = files.map(([name, text]) => [name, bytes(text)]);
    const { status, said } = engine.run({ words, files: pairs, input: bytes(input) });
    return { status, said: Buffer.from(said).toString('base64') };
  } catch (error) {
    return { cut: error.message };
  }
}

const lines = readFileSync(calls, 'utf8').split('\n').filter(Boolean);
writeFileSync(answers, lines.map((line) => `${JSON.stringify(answer(JSON.parse(line)))}\n`).join(''));
