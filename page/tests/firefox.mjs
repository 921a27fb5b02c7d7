// Firefox without a screen, spoken to by Marionette: messages on a socket, each behind its length.
import { spawn } from 'node:child_process';
import { mkdtempSync, readFileSync, rmSync, writeFileSync } from 'node:fs';
import { createConnection } from 'node:net';
import { tmpdir } from 'node:os';
import { join } from 'node:path';

const wait = (milliseconds) => new Promise((resolve) => setTimeout(resolve, milliseconds));

/** A port that the browser writes into its profile once it listens there. */
async function portOf(profile) {
  for (const end = Date.now() + 300000; Date.now() < end; await wait(100)) {
    try {
      const port = Number(readFileSync(join(profile, 'MarionetteActivePort'), 'utf8'));
      if (port) return port;
    } catch {
      // It isn't written yet.
    }
  }
  throw new Error('Firefox did not begin');
}

export class Firefox {
  constructor(program = 'firefox-esr') {
    this.profile = mkdtempSync(join(tmpdir(), 'larch-page-'));
    writeFileSync(join(this.profile, 'user.js'), 'user_pref("marionette.port", 0);\n');
    const words = ['--headless', '--marionette', '--no-remote', '--profile', this.profile];
    this.process = spawn(program, words, { stdio: 'ignore' });
    this.number = 0;
    this.waiting = new Map();
    this.errors = [];
  }

  async begin() {
    this.socket = createConnection(await portOf(this.profile), '127.0.0.1');
    let held = Buffer.alloc(0);
    this.socket.on('data', (piece) => {
      held = Buffer.concat([held, piece]);
      for (;;) {
        const colon = held.indexOf(58), length = Number(held.subarray(0, Math.max(colon, 0)).toString());
        if (colon < 0 || held.length < colon + 1 + length) return;
        this.take(JSON.parse(held.subarray(colon + 1, colon + 1 + length).toString()));
        held = held.subarray(colon + 1 + length);
      }
    });
    await new Promise((resolve) => this.socket.on('connect', resolve));
    await this.send('WebDriver:NewSession', {});
    await this.send('WebDriver:SetTimeouts', { script: 600000, pageLoad: 600000 });
  }

  take(message) {
    if (!Array.isArray(message)) return;
    const [, id, error, result] = message, waits = this.waiting.get(id);
    this.waiting.delete(id);
    if (error) waits.reject(new Error(error.message));
    else waits.resolve(result);
  }

  send(name, parameters) {
    const id = ++this.number, text = JSON.stringify([0, id, name, parameters]);
    return new Promise((resolve, reject) => {
      this.waiting.set(id, { resolve, reject });
      this.socket.write(`${Buffer.byteLength(text)}:${text}`);
    });
  }

  async open(address) {
    if (!this.socket) await this.begin();
    await this.send('WebDriver:Navigate', { url: 'about:blank' });
    await this.send('WebDriver:Navigate', { url: address });
  }

  async say(expression) {
    const script = { script: `return (${expression});`, args: [], sandbox: null };
    return (await this.send('WebDriver:ExecuteScript', script)).value;
  }

  async until(expression, seconds = 60) {
    for (const end = Date.now() + seconds * 1000; Date.now() < end; await wait(20))
      if (await this.say(`Boolean(${expression})`).catch(() => false)) return;
    throw new Error(`not within ${seconds} s: ${expression}`);
  }

  async picture(path) {
    writeFileSync(path, Buffer.from((await this.send('WebDriver:TakeScreenshot', { full: false })).value, 'base64'));
  }

  async close() {
    await this.send('Marionette:Quit', { flags: ['eForceQuit'] }).catch(() => {});
    this.process.kill();
    const { exitCode, signalCode } = this.process;
    if (exitCode === null && signalCode === null) await new Promise((resolve) => this.process.on('exit', resolve));
    rmSync(this.profile, { recursive: true, force: true, maxRetries: 5 });
  }
}
