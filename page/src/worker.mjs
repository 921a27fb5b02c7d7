// The worker: it holds a module, and answers one call after another.
import { Engine } from './engine.mjs';

let engine;

function answer(call) {
  try {
    const { status, said } = engine.run(call);
    return { status, said: new TextDecoder().decode(said) };
  } catch (error) {
    return { cut: error.message };
  }
}

self.onmessage = ({ data }) => {
  if (data.module) {
    engine = new Engine(new WebAssembly.Module(data.module));
    self.postMessage({ begun: true });
  } else {
    self.postMessage({ number: data.number, ...answer(data.call) });
  }
};
