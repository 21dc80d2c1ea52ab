// A classic script, first in <head>. The browser loads the page by itself, from plain URLs. Then this client
// says hello, and adopts what was loaded. Each later plan gives its new instances URLs of their own; they
// are fetched, parsed and linked without evaluating any before the server is told `applied`, and then they
// are evaluated. What can't be done hot is a load of the page by the browser.

import { Browser, LINKED } from './browser.js';
import { stayConnected } from './connection.js';
import { told } from './faults.js';
import { fire } from './handlers.js';
import { enter } from './hot.js';
import { isOfServer, nameOf } from './names.js';
import { Page } from './page.js';
import { staleWords } from './stale.js';

const { dataset } = document.currentScript;
const sent = { id: dataset.page, root: dataset.root, run: dataset.run, count: Number(dataset.count) };
const isQuiet = new URLSearchParams(location.search).has('hmr-quiet');
const page = new Page(sent, new Browser(isQuiet));

globalThis.__hmr = {
  page,
  stop: LINKED,
  enter: (meta) => enter(page, meta),
  fire: (event, value) => fire(page, event, value),
  edges: () => page.stale,
  stale: () => page.stale.map(staleWords),
  cut: () => page.cut(),
};

addEventListener('error', ({ target, filename, lineno: line, colno: column, message, defaultPrevented }) => {
  if (page.isAdopted || target !== window || !filename || !isOfServer(filename) || defaultPrevented) return;
  const fault = { name: nameOf(filename), line, column, message: message.replace(/^Uncaught /, '') };
  told(page, 'load', { ...fault, stays: 'While the page was loaded.' });
}, true);
// A page that comes back from the browser's cache has missed what was saved meanwhile.
addEventListener('pageshow', ({ persisted }) => { if (persisted) location.reload(); });
addEventListener('DOMContentLoaded', () => {
  page.show();
  stayConnected(page);
});
