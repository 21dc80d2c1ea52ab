// What modules see: import.meta.hot, and the import() that looks for live instances.

import { fire } from './handlers.js';
import { importLive } from './importing.js';
import { Instance } from './modules.js';
import { nameOf, planOf, resolve } from './names.js';

/** The first statement of each module that uses import.meta or import(): its import.meta gets `hot`. */
export function enter(page, meta) {
  const instance = entered(page, meta.url);
  instance.hasBegun = true;
  meta.hot = hotOf(page, instance);
  // Texts call it by `new`, so that no line before the call goes on in it.
  meta.hotImport = function hotImport(specifier, options) {
    return importLive(page, meta.url, specifier, options);
  };
}

// A module at a URL with a query of its own isn't followed: its instance is never live.
function entered(page, url) {
  if (url.split('#')[0] === document.URL.split('#')[0]) return page.instanceAt('', page.root);
  const plan = planOf(url);
  return plan === undefined ? new Instance(nameOf(url), '') : page.instanceAt(plan, nameOf(url));
}

function hotOf(page, instance) {
  const { name } = instance;
  const whileLive = (act) => (...words) => { if (!instance.isOver) act(...words); };
  return {
    get data() { return page.bag(name); },
    accept: whileLive((first, callback) => {
      if (typeof first === 'function') instance.own.push(first);
      else if (first !== undefined && callback !== undefined) {
        const names = [first].flat().map((each) => resolve(name, each));
        instance.onDependencies.push({ names, isList: Array.isArray(first), callback });
      }
    }),
    dispose: whileLive((handler) => { instance.disposer = handler; }),
    prune: whileLive((handler) => { instance.pruner = handler; }),
    decline() {},                         // the server reads it in the text
    on: whileLive((event, callback) => instance.listeners.push({ event, callback })),
    off(event, callback) {
      const isOther = (each) => each.event !== event || each.callback !== callback;
      instance.listeners = instance.listeners.filter(isOther);
    },
    // It means the module as it is live.
    invalidate(message = '') {
      const version = page.live.get(name)?.module?.version;
      if (version === undefined) return;
      page.invalidations.push({ type: 'invalidate', path: name, version, message: String(message) });
      fire(page, 'vite:invalidate', { path: name, message });
      page.browser.wake(page);
    },
  };
}
