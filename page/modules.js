// Modules at a version, and their instances on the page.

import { urlOf } from './names.js';

const IMPORT = /^import "([^"]*)";$/gm;
const MOST_TRIES = 40;

/** A module at a version. The server plans on a short text in place of the file, in which each import has
 *  a line of its own. What else the page knows of the file, `learn` asks. */
export function readModule(name, version, text) {
  const targets = [...text.matchAll(IMPORT)].map(([, to]) => to);
  const imports = targets.map((to) => ({ to, names: [] }));
  const unknown = { kind: kindOf(name), imports, exports: [], stars: [], through: [], isKnown: false };
  return { name, version, targets, ...unknown };
}

// By the name alone.
function kindOf(name) {
  const [, ending] = /\.(\w+)$/.exec(name) ?? [];
  return { css: 'css', json: 'json', html: 'html', htm: 'html' }[ending] ?? 'js';
}

/** Asks the server for what it read in the files of these modules: what they export, and the names and lines of
 *  their imports. Stale bindings are told by it, and a link that the browser refused; nothing is evaluated by it. A
 *  version may be fetched a moment before its file is kept there. */
export async function learn(page, modules) {
  let unknown = modules.filter(({ isKnown }) => !isKnown);
  for (let tries = 0; unknown.length > 0 && tries < MOST_TRIES; tries += 1) {
    if (tries > 0) await page.browser.pause(50);
    const reports = await page.browser.reportsOf(versionsOf(unknown));
    for (const module of unknown) {
      const report = reports[module.name];
      if (report) Object.assign(module, report, { isKnown: true });
    }
    unknown = unknown.filter(({ isKnown }) => !isKnown);
  }
}

/** The versions of modules by name. */
export function versionsOf(modules) {
  return Object.fromEntries(modules.map(({ name, version }) => [name, version]));
}

const noHandlers = () => ({ own: [], onDependencies: [], disposer: null, pruner: null, listeners: [] });

/** One evaluation of a module on this page. `links` has for each import the instance that it is bound to;
 *  `state` is  `made`, `done`, `faulted` where its evaluation threw, and `unrun` where that of a module
 *  before it did. */
export class Instance {
  constructor(name, plan) {
    this.name = name;
    this.plan = plan;
    this.url = urlOf(plan, name);
    this.module = null;
    this.number = 0;
    this.links = new Map();
    this.state = 'made';
    this.error = null;
    this.namespace = undefined;
    this.hasBegun = false;
    this.isOver = false;
    this.accepts = [];                    // of the update that replaced it
    Object.assign(this, noHandlers());
  }

  /** It isn't live any more: its handlers are let go, and it takes no further ones. */
  end() {
    this.isOver = true;
    Object.assign(this, noHandlers());
  }

  get failed() {
    return this.state === 'faulted' || this.state === 'unrun';
  }
}

/** Instances by falling number, as they are disposed of. */
export function falling(instances) {
  return instances.filter((each) => each !== undefined).sort((one, other) => other.number - one.number);
}
