// What a page asks of its browser and of the paths of the server. All else of the client has no browser.

import { showBadge } from './badge.js';
import { isOfServer, nameOf } from './names.js';
import { showFaults } from './overlay.js';
import { restyle } from './styles.js';

/** What the check of a plan throws: everything is linked. */
export const LINKED = { toString: () => 'hmr: everything is linked' };

export class Browser {
  /** `isQuiet`: the page shows no badge and no overlay. */
  constructor(isQuiet) {
    this.isQuiet = isQuiet;
    this.counts = {};                     // of answered requests by kind, of asks by the kind of the answer
    this.turns = [];                      // the last hundred turns that weren't idle
    this.times = [];                      // milliseconds from an update's answer to its `done`
    this.locating = null;
    // A fault that is being located is shown by the overlay alone.
    addEventListener('error', (event) => this.locating?.(event), true);
  }

  note(request, answer) {
    const kind = request.type === 'ask' ? answer.type : request.type;
    this.counts[kind] = (this.counts[kind] ?? 0) + 1;
    if (answer.type === 'update') this.begun = performance.now();
    if (kind === 'applied') this.times.push(performance.now() - this.begun);
    if (kind !== 'idle') this.turns = [...this.turns.slice(-99), [request, answer]];
  }

  show(page) {
    if (this.isQuiet || document.body === null) return;
    showBadge(page);
    showFaults(page);
  }

  report(error) {
    reportError(error);
  }

  pause(milliseconds) {
    return new Promise((done) => { setTimeout(done, milliseconds); });
  }

  /** A native import. One with options isn't written as such, since older browsers can't parse it; where the
   *  page forbids that it fails. */
  async importModule(url, options) {
    if (options === undefined) return import(url);
    return new Function('url', 'options', 'return import(url, options)')(url, options);
  }

  tellPlan(plan) {
    return this.post('/@hmr/plan', plan);
  }

  /** What the server read in the files of these names and versions, by name; null where it hasn't one. */
  async reportsOf(made) {
    return (await this.post('/@hmr/about', { made })).json();
  }

  async post(path, value) {
    const answer = await fetch(path, { method: 'POST', body: JSON.stringify(value) });
    if (!answer.ok) throw new Error(`${path}: ${answer.status} ${await answer.text()}`);
    return answer;
  }

  /** The server holds an ask until there is something to tell; the page has something to say now. */
  wake(page) {
    if (page.isAsking) fetch('/@hmr/wake', { method: 'POST' }).catch(() => {});
  }

  /** Null where the check at this address finds everything linked; else the error, and its place if any. */
  async link(address) {
    const error = await import(address).then(() => null, (thrown) => thrown);
    return error === LINKED ? null : { error, ...await this.locate(address) };
  }

  // Where the fault is that keeps a module from being linked: the browser tells it of a script's address.
  locate(address) {
    return new Promise((done) => {
      let found = {};
      this.locating = (event) => {
        if (event.target !== window || !(event.error instanceof SyntaxError)) return;
        event.preventDefault();
        event.stopImmediatePropagation();
        const { filename, lineno: line, colno: column, message } = event;
        const name = isOfServer(filename) ? nameOf(filename) : filename;
        found = { name, line, column, message: message.replace(/^Uncaught /, '') };
      };
      const script = Object.assign(document.createElement('script'), { type: 'module', src: address });
      script.onload = script.onerror = () => {
        this.locating = null;
        script.remove();
        done(found);
      };
      document.head.append(script);
    });
  }

  restyle(name, url) {
    restyle(name, url);
  }
}
