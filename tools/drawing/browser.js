// Headless Chromium, driven over a pipe by its DevTools protocol, for the test of the drawn page.
'use strict';

const { spawn, spawnSync } = require('node:child_process');
const { mkdtempSync, rmSync } = require('node:fs');
const { tmpdir } = require('node:os');
const { join } = require('node:path');

const NAMES = ['chromium', 'chromium-browser', 'google-chrome', 'google-chrome-stable', 'chrome'];

/** The command of an installed Chromium; undefined where there is none. */
function chromium() {
  return NAMES.find((name) => spawnSync('sh', ['-c', `command -v ${name}`]).status === 0);
}

class Browser {
  constructor(command) {
    this.folder = mkdtempSync(join(tmpdir(), 'draw-'));
    const words = ['--headless', '--no-sandbox', '--disable-gpu', '--remote-debugging-pipe', '--window-size=1360,860',
      `--user-data-dir=${this.folder}`];
    this.process = spawn(command, words, { stdio: ['ignore', 'ignore', 'ignore', 'pipe', 'pipe'] });
    this.waiting = new Map();
    this.events = [];
    this.sent = 0;
    let rest = '';
    this.process.stdio[4].setEncoding('utf8').on('data', (data) => {
      const messages = (rest + data).split('\0');
      rest = messages.pop();
      messages.forEach((message) => this.take(JSON.parse(message)));
    });
    this.ended = new Promise((done) => this.process.on('exit', done));
    this.ended.then(() => this.waiting.forEach(({ reject }) => reject(new Error('the browser ended'))));
  }

  take(message) {
    if (message.id === undefined) {
      this.events.push(message);
      return;
    }
    const { resolve, reject } = this.waiting.get(message.id);
    this.waiting.delete(message.id);
    if (message.error) reject(new Error(message.error.message));
    else resolve(message.result);
  }

  call(method, params = {}) {
    this.sent += 1;
    const message = { id: this.sent, method, params, sessionId: this.session };
    this.process.stdio[3].write(`${JSON.stringify(message)}\0`);
    return new Promise((resolve, reject) => this.waiting.set(message.id, { resolve, reject }));
  }

  /** Opens a page and waits until it is loaded. */
  async open(address) {
    const { targetId } = await this.call('Target.createTarget', { url: 'about:blank' });
    this.session = (await this.call('Target.attachToTarget', { targetId, flatten: true })).sessionId;
    await Promise.all(['Page', 'Runtime', 'Log'].map((domain) => this.call(`${domain}.enable`)));
    await this.call('Page.navigate', { url: address });
    for (let i = 0; i < 200; i += 1) {
      if (await this.value('document.readyState === "complete" && location.href !== "about:blank"')) return;
      await new Promise((done) => setTimeout(done, 25));
    }
    throw new Error('the page was not loaded within five seconds');
  }

  /** The value of an expression on the page. */
  async value(expression) {
    const { result, exceptionDetails } = await this.call('Runtime.evaluate', { expression, returnByValue: true });
    if (exceptionDetails) throw new Error(exceptionDetails.exception?.description ?? exceptionDetails.text);
    return result.value;
  }

  async press(key) {
    await this.call('Input.dispatchKeyEvent', { type: 'keyDown', key });
    await this.call('Input.dispatchKeyEvent', { type: 'keyUp', key });
  }

  /** A picture of the page, as the bytes of a PNG; `dark` where the reader wants a dark page. */
  async picture(dark) {
    const scheme = { name: 'prefers-color-scheme', value: dark ? 'dark' : 'light' };
    await this.call('Emulation.setEmulatedMedia', { features: [scheme] });
    return Buffer.from((await this.call('Page.captureScreenshot')).data, 'base64');
  }

  /** What the page said to its console as an error, and what it threw. */
  errors() {
    const said = {
      'Runtime.exceptionThrown': (p) => p.exceptionDetails.exception?.description ?? p.exceptionDetails.text,
      'Runtime.consoleAPICalled': (p) => (p.type === 'error' ? p.args.map((arg) => arg.value).join(' ') : ''),
      'Log.entryAdded': (p) => (p.entry.level === 'error' ? p.entry.text : ''),
    };
    return this.events.map((event) => said[event.method]?.(event.params) ?? '').filter((text) => text !== '');
  }

  async close() {
    this.call('Browser.close').catch(() => {});
    await this.ended;
    rmSync(this.folder, { recursive: true, force: true, maxRetries: 5 });
  }
}

module.exports = { Browser, chromium };
