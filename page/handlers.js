// The handlers of instances: what runs them, and the events they listen to.

import { placeOf } from './places.js';
import { falling } from './modules.js';

/** Runs a handler. What it throws is reported, and the page goes on. */
export function run(page, instance, handler, value) {
  try {
    handler(value)?.then?.(undefined, (error) => page.browser.report(error));
  } catch (error) {
    page.browser.report(error);
    if (instance !== undefined) {
      page.faults.set(instance.name, { ...placeOf(error), instance, stays: 'A handler failed.' });
      page.show();
    }
  }
}

/** Runs the disposer that an instance holds, with its data. It runs once. */
export function dispose(page, instance) {
  const { disposer } = instance;
  instance.disposer = null;
  if (disposer !== null) run(page, instance, disposer, page.bag(instance.name));
}

/** Calls the listeners of an event, of the live instances by rising number. */
export function fire(page, event, value) {
  const listening = [...page.live.values()].filter(({ listeners }) => listeners.length > 0);
  for (const instance of falling(listening).reverse()) {
    for (const each of [...instance.listeners]) if (each.event === event) run(page, instance, each.callback, value);
  }
}
