// What a scenario has: a folder of its own, below the one that the program serves, and tabs.
'use strict';

const assert = require('node:assert/strict');
const { mkdirSync, readFileSync, renameSync, unlinkSync, writeFileSync } = require('node:fs');
const { dirname, join } = require('node:path');
const { Program } = require('./program.js');
const { Tab } = require('./tab.js');

/** The head of a page, with what scenarios look at: `seen` has what its modules tell, and `mark` is lost
 *  with the page. */
const HEAD = '<!doctype html><link rel="icon" href="data:,"><script>window.seen = []; window.mark = 1;</script>';
const PAGE = `${HEAD}<script type="module" src="./main.js"></script><p id="p"></p>`;

/** Nothing is under way on the page. */
const CALM = '(__hmr.page.plan === null && __hmr.page.isAsking)';
const OPENED = `__hmr.page.isAdopted && ${CALM}`;
const COUNTS = '__hmr.page.browser.counts';
const TAKEN = `["applied", "aborted", "prune", "error"].reduce((sum, kind) => sum + (${COUNTS}[kind] ?? 0), 0)`;

/** A text without the indentation that it has in a scenario. */
function unindented(text) {
  if (!text.startsWith('\n')) return text;
  const lines = text.slice(1).trimEnd().split('\n');
  const depth = Math.min(...lines.filter((line) => line !== '').map((line) => /^ */.exec(line)[0].length));
  return lines.map((line) => `${line.slice(depth)}\n`).join('');
}

class Visit {
  /** `all` has the browser, the program, its command and the folder that it serves. */
  constructor(all, folder) {
    Object.assign(this, { all, folder, tabs: [] });
  }

  get program() {
    return this.all.program;
  }

  /** The name of a module of this folder. */
  name(file) {
    return `/${this.folder}/${file}`;
  }

  path(file) {
    return join(this.all.site, this.folder, file);
  }

  /** Saves a file with a text that may be indented as it is here. */
  write(file, text) {
    this.save(file, unindented(text));
  }

  /** Saves a file in one go, as an editor does. */
  save(file, text) {
    mkdirSync(dirname(this.path(file)), { recursive: true });
    writeFileSync(join(this.all.site, '.saved'), text);
    renameSync(join(this.all.site, '.saved'), this.path(file));
  }

  /** Saves a file with other words in the place of some. */
  change(file, from, to) {
    const old = readFileSync(this.path(file), 'utf8');
    assert.ok(old.includes(from), `${file} has ${from}`);
    this.save(file, old.replace(from, to));
  }

  remove(file) {
    unlinkSync(this.path(file));
  }

  /** Opens a page, and waits until an expression is true on it. */
  async open(address = 'index.html', until = OPENED) {
    const tab = await Tab.open(this.all.browser, `${this.program.address}${this.folder}/${address}`);
    this.tabs.push(tab);
    await tab.until(until);
    return tab;
  }

  async close(tab) {
    this.tabs.splice(this.tabs.indexOf(tab), 1);
    await tab.close();
  }

  /** Ends the program. */
  async endProgram() {
    await this.program.kill();
  }

  /** Begins the program again at its port. */
  async beginProgram() {
    this.all.program = await Program.begin(this.all.command, this.all.site, this.program.port);
  }

  async leave() {
    await Promise.all(this.tabs.map((tab) => tab.close()));
  }
}

/** Does something, and waits until the page took what came of it. */
async function after(tab, act, turns = 1) {
  const before = await tab.value(TAKEN);
  await act();
  await tab.until(`${TAKEN} >= ${before + turns} && ${CALM}`);
}

/** Does something, and waits until the browser has loaded the page again. */
async function reloads(tab, act, until = OPENED) {
  await tab.value('window.isOld = true');
  await act();
  await tab.until(`window.isOld === undefined && ${until}`);
}

/** What the modules told since it was asked last. */
const seen = (tab) => tab.value('seen.splice(0)');
const stale = (tab) => tab.value('__hmr.stale()');

/** The faults that the page shows. */
const faults = (tab) => tab.value('[...__hmr.page.faults.values()]'
  + '.map(({ name, line, column, message, stays }) => ({ name, line, column, message, stays }))');

/** The faults as lines. */
const faultLines = async (tab) => (await faults(tab))
  .map(({ name, line, column, message }) => `${name}:${line}:${column} ${message}`).join('\n');

const part = (id) => `document.querySelector("hmr-page")?.shadowRoot.getElementById("${id}")`;

/** What the page shows over itself. */
const overlay = (tab) => tab.value(`${part('overlay')}?.hidden === false ? ${part('overlay')}.innerText : ""`);
const badge = (tab) => tab.value(`${part('badge')}?.hidden === false ? ${part('badge')}.innerText : ""`);
const badgeList = (tab) => tab.value(`[...${part('list')}?.children ?? []].map(({ textContent }) => textContent)`);

module.exports = {
  CALM, COUNTS, HEAD, OPENED, PAGE, Visit, after, badge, badgeList, faultLines, faults, overlay, part, reloads, seen,
  stale, unindented,
};
