// A tab of the browser.
'use strict';

const { pause } = require('./pause.js');

const DOMAINS = ['Page', 'Runtime', 'Log', 'Network'];
const MOST = 60000;                       // milliseconds

class Tab {
  static async open(browser, address) {
    const { targetId } = await browser.call('Target.createTarget', { url: 'about:blank' });
    const { sessionId } = await browser.call('Target.attachToTarget', { targetId, flatten: true });
    const tab = new Tab(browser, sessionId, targetId);
    await Promise.all(DOMAINS.map((domain) => tab.call(`${domain}.enable`)));
    await tab.call('Page.navigate', { url: address });
    return tab;
  }

  constructor(browser, session, target) {
    Object.assign(this, { browser, session, target });
  }

  call(method, params) {
    this.browser.session = this.session;
    const answer = this.browser.call(method, params);
    this.browser.session = undefined;
    return answer;
  }

  /** What the browser told of this tab. */
  get events() {
    return this.browser.events.filter(({ sessionId }) => sessionId === this.session);
  }

  /** Takes the first event of this method that came or comes. */
  async takes(method) {
    const isIt = (event) => event.sessionId === this.session && event.method === method;
    for (const end = Date.now() + MOST; Date.now() < end; await pause(10)) {
      const at = this.browser.events.findIndex(isIt);
      if (at >= 0) return this.browser.events.splice(at, 1)[0].params;
    }
    throw new Error(`the browser didn't tell ${method}`);
  }

  /** The value of an expression on the page; a promise is awaited. */
  async value(expression) {
    const words = { expression, returnByValue: true, awaitPromise: true };
    const { result, exceptionDetails } = await this.call('Runtime.evaluate', words);
    if (exceptionDetails) throw new Error(exceptionDetails.exception?.description ?? exceptionDetails.text);
    return result.value;
  }

  /** Waits until an expression is true on the page. */
  async until(expression, time = MOST) {
    let last;
    for (const end = Date.now() + time; Date.now() < end; await pause(20)) {
      last = await this.value(expression).catch((error) => error.message);
      if (last === true) return;
    }
    throw new Error(`it never came true: ${expression}\n  last: ${JSON.stringify(last)}`);
  }

  async press(key) {
    await this.call('Input.dispatchKeyEvent', { type: 'keyDown', key });
    await this.call('Input.dispatchKeyEvent', { type: 'keyUp', key });
  }

  /** A picture of the page, as the bytes of a PNG. */
  async picture() {
    return Buffer.from((await this.call('Page.captureScreenshot')).data, 'base64');
  }

  /** What the page threw, and what is in its console as an error or a warning. */
  errors() {
    const isBad = (level) => level === 'error' || level === 'warning';
    const said = {
      'Runtime.exceptionThrown': ({ exceptionDetails: { exception, text, url, lineNumber } }) => (
        `${exception?.description ?? text} (${url}:${lineNumber + 1})`),
      'Runtime.consoleAPICalled': ({ type, args }) => (
        isBad(type) ? args.map(({ value, description }) => value ?? description).join(' ') : ''),
      'Log.entryAdded': ({ entry: { level, text, url } }) => (isBad(level) ? `${text} (${url})` : ''),
    };
    return this.events.map(({ method, params }) => said[method]?.(params) ?? '').filter((text) => text !== '');
  }

  async close() {
    await this.browser.call('Target.closeTarget', { targetId: this.target });
    this.browser.events = this.browser.events.filter(({ sessionId }) => sessionId !== this.session);
  }
}

module.exports = { Tab };
