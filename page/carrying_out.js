// A plan is carried out: old instances end, new ones are made and evaluated, callbacks run. A first load
// makes nothing; it adopts what the browser loaded by itself.

import { evaluate, eagerOf } from './evaluating.js';
import { forgetMended, told } from './faults.js';
import { dispose, fire, run } from './handlers.js';
import { falling } from './modules.js';
import { placeOf } from './places.js';
import { staleEdges } from './stale.js';

/** Carries the plan out that was applied. */
export async function carryOut(page) {
  const { plan } = page;
  const modules = plan.made;
  page.plan = null;
  if (plan.kind === 'load') load(page, plan, modules);
  else await update(page, plan, modules);
  page.forced.clear();
  page.last = { ...plan, made: modules.map(({ name }) => name) };
  page.stale = staleEdges(page);
  forgetMended(page, plan);
}

/** Takes modules away that nothing imports any more. */
export function prune(page, names) {
  if (names.length > 0) fire(page, 'vite:beforePrune', { type: 'prune', paths: names });
  for (const instance of falling(names.map((name) => page.live.get(name)))) {
    const { pruner } = instance;
    dispose(page, instance);
    if (pruner !== null) run(page, instance, pruner, page.bag(instance.name));
    end(page, instance);
    page.bags.delete(instance.name);
    page.forced.delete(instance.name);
    page.faults.delete(instance.name);
  }
  page.stale = staleEdges(page);
}

function end(page, instance) {
  instance.end();
  page.live.delete(instance.name);
}

function load(page, plan, modules) {
  const gone = page.isAdopted ? [...page.live.keys()].filter((name) => !plan.staged.has(name)) : [];
  make(page, modules, plan.isFirst ? '' : plan.id);
  if (plan.isFirst) takeLoaded(page, modules);
  prune(page, gone);
  page.isAdopted = true;
  page.adopt();
  page.extras.forEach(({ done }, name) => {
    if (!page.roots.includes(name)) return;
    page.extras.set(name, {});
    done?.();
  });
}

// The browser evaluated what it loaded by itself. Where that failed, the next change loads the page again.
function takeLoaded(page, modules) {
  for (const { name } of modules) page.live.get(name).state = 'done';
  const begun = modules.find(({ name }) => name === page.root).imports
    .filter(({ to, role }) => role === 'module' && page.live.get(to)?.module.kind === 'js');
  for (const { to } of begun) {
    page.browser.importModule(to).catch((error) => {
      page.hurt = error;
      const stays = 'The page was loaded in part. It is loaded again at the next change.';
      told(page, 'load', { ...placeOf(error), stays });
    });
  }
}

function make(page, modules, plan) {
  const made = modules.map((module) => {
    const instance = page.instanceAt(plan, module.name);
    page.made += 1;
    instance.number = page.made;
    instance.module = module;
    page.live.set(module.name, instance);
    return instance;
  });
  for (const instance of made) {
    for (const to of instance.module.targets) instance.links.set(to, page.live.get(to));
  }
  return made;
}

async function update(page, plan, modules) {
  fire(page, 'vite:beforeUpdate', { type: 'update', updates: plan.updates });
  const setAside = new Map();             // the callbacks on itself that each replaced instance had
  const begun = new Set();                // the replaced modules that had begun to run
  for (const instance of falling(modules.map(({ name }) => page.live.get(name)))) {
    if (instance.hasBegun) begun.add(instance.name);
    dispose(page, instance);
    setAside.set(instance.name, instance.own);
    instance.accepts = plan.updates;
    end(page, instance);
  }
  const made = make(page, modules, plan.id);
  const eager = eagerOf(page, plan, begun, made);
  page.isEvaluating = true;
  for (const instance of made) if (eager.has(instance)) await evaluate(page, instance);
  page.isEvaluating = false;
  const isMade = new Set(made.map(({ name }) => name));
  const isCalled = ({ acceptedPath }) => isMade.has(acceptedPath) || page.forced.has(acceptedPath);
  for (const pair of plan.updates.filter(isCalled)) await callBack(page, pair, isMade, setAside);
  fire(page, 'vite:afterUpdate', { type: 'update', updates: plan.updates });
}

// The callbacks of a boundary, of a module that was made anew or invalidated: on itself those of the
// instance before, on a dependency those of the live one.
async function callBack(page, { path, acceptedPath }, isMade, setAside) {
  const accepted = page.live.get(acceptedPath);
  if (path === page.root && accepted.module.kind === 'css') page.browser.restyle(acceptedPath, accepted.url);
  if (path === acceptedPath && isMade.has(path)) {
    for (const callback of setAside.get(path) ?? []) {
      run(page, page.live.get(path), callback, await namespaceOf(page, acceptedPath));
    }
  } else {
    for (const { names, isList, callback } of [...page.live.get(path).onDependencies]) {
      if (!names.includes(acceptedPath)) continue;
      const value = await namespaceOf(page, acceptedPath);
      const values = names.map((name) => (name === acceptedPath ? value : undefined));
      run(page, page.live.get(path), callback, isList ? values : value);
    }
  }
}

async function namespaceOf(page, name) {
  const instance = page.live.get(name);
  if (instance === undefined || instance.failed) return undefined;
  const { kind } = instance.module;
  const options = kind === 'css' || kind === 'json' ? { with: { type: kind } } : undefined;
  instance.namespace ??= await page.browser.importModule(instance.url, options).catch(() => undefined);
  return instance.namespace;
}
