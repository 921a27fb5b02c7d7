// The page's side of a worker: calls are queued, and one that takes too long is given up with its worker.

export class Caller {
  /** `makeWorker` makes a worker, `module` has the bytes of the module. */
  constructor(makeWorker, module) {
    this.makeWorker = makeWorker;
    this.module = module;
    this.number = 0;
    this.waiting = new Map();
    this.begin();
  }

  begin() {
    this.hasBegun = false;
    this.worker = this.makeWorker();
    this.worker.onmessage = ({ data }) => this.settle(data);
    this.worker.onerror = (event) => this.fail(event.message || 'the worker ended');
    this.worker.postMessage({ module: this.module });
  }

  settle({ begun, number, ...answer }) {
    if (begun) this.hasBegun = true;
    const resolve = this.waiting.get(number);
    this.waiting.delete(number);
    if (resolve) resolve(answer);
  }

  // A worker that fails before it has begun would fail again, so no other one is made.
  fail(why) {
    if (this.hasBegun) this.end({ cut: why });
    else this.why = why;
    this.tell({ cut: why });
  }

  tell(answer) {
    const waiting = [...this.waiting.values()];
    this.waiting.clear();
    waiting.forEach((resolve) => resolve(answer));
  }

  end(answer) {
    this.worker.terminate();
    this.begin();
    this.tell(answer);
  }

  /** What the program answers: `status` and `said`, or `cut` where it didn't come to an end. */
  ask(call) {
    if (this.why) return Promise.resolve({ cut: this.why });
    const number = ++this.number;
    return new Promise((resolve) => {
      this.waiting.set(number, resolve);
      this.worker.postMessage({ number, call });
    });
  }

  /** Ends what runs, with its worker; all that wait are told why. */
  giveUp(why) {
    this.end({ cut: why, givenUp: true });
  }
}
