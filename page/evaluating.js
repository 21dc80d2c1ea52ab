// New instances are evaluated one after another, as they are numbered.

import { told } from './faults.js';
import { placeOf } from './places.js';

const LATE = 'late';
const LATE_AFTER = 5000;                  // milliseconds
const STUCK = {
  message: 'Its evaluation hasn\'t ended: an await at its top is still open.',
  stays: 'The update waits for it.',
};

/** The instances that are evaluated with an update: those that the page's imports reach, without dynamic
 *  ones, and those whose namespace a callback gets. The others are evaluated where they are imported. */
export function eagerOf(page, plan, begun, made) {
  const reached = new Set();
  const reach = (first) => {
    const left = [first];
    while (left.length > 0) {
      const instance = left.pop();
      if (instance === undefined || reached.has(instance)) continue;
      reached.add(instance);
      instance.module.lazy ??= lazyTargets(instance.module);
      const { links, module: { lazy } } = instance;
      links.forEach((to, name) => lazy.has(name) || left.push(to));
    }
  };
  for (const { path, acceptedPath } of plan.updates) {
    const isCalled = path !== acceptedPath && hasCallback(page.live.get(path), acceptedPath);
    if (isCalled || begun.has(acceptedPath)) reach(page.live.get(acceptedPath));
  }
  if (made.every((instance) => reached.has(instance))) return reached;
  for (const name of [page.root, ...page.extras.keys()]) reach(page.live.get(name));
  return reached;
}

function hasCallback(instance, accepted) {
  return instance?.onDependencies.some(({ names }) => names.includes(accepted)) ?? false;
}

// What a module imports by `import()` or by its import map alone.
function lazyTargets({ imports }) {
  const isLazy = ({ dynamic, role }) => dynamic || role === 'map';
  const lazy = new Set(imports.filter(isLazy).map(({ to }) => to));
  for (const each of imports) if (!isLazy(each)) lazy.delete(each.to);
  return lazy;
}

/** Evaluates an instance. A module that throws counts as applied; callbacks get undefined of it. */
export async function evaluate(page, instance) {
  if (instance.module.kind !== 'js') {
    instance.state = 'done';
    return;
  }
  const watch = setTimeout(() => told(page, LATE, { ...STUCK, name: instance.name }), LATE_AFTER);
  await page.browser.importModule(entryTo(instance).url).catch(() => {});
  try {
    instance.namespace = await page.browser.importModule(instance.url);
    instance.state = 'done';
  } catch (error) {
    instance.error = error;
    instance.state = isOwn(page, instance, error) ? 'faulted' : 'unrun';
    if (instance.state === 'faulted') {
      page.browser.report(error);
      const stays = 'It counts as applied; callbacks get undefined.';
      told(page, instance.name, { ...placeOf(error), instance, stays });
    }
  }
  clearTimeout(watch);
  page.faults.delete(LATE);
}

// Whether an error was thrown by this instance, and not by one that it imports.
function isOwn(page, instance, error) {
  if ([...instance.links.values()].some((to) => to !== instance && to?.error === error)) return false;
  const { url } = placeOf(error);
  const thrower = url === undefined ? undefined : page.instanceOf(url);
  return thrower === undefined || thrower === instance;
}

// Where the browser has to begin so that this instance is evaluated next: on a cycle at the module by which
// the walk came in.
function entryTo(instance, seen = new Set([instance])) {
  let entry = instance;
  for (const to of instance.links.values()) {
    if (to === undefined || seen.has(to) || to.state !== 'made' || to.module.kind !== 'js') continue;
    if (instance.module.imports.every((each) => each.to !== to.name || each.dynamic)) continue;
    const other = entryTo(to, seen.add(to));
    if (other.number > entry.number) entry = other;
  }
  return entry;
}
