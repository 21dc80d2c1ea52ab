// All that a plan needs is fetched: the browser links its new modules without evaluating any. Then the plan
// is given up, or the page is loaded again by the browser, or it says hello anew, or the plan can be carried
// out here.

import { fire } from './handlers.js';
import { followEarly } from './importing.js';
import { linkFault } from './linking.js';
import { learn } from './modules.js';
import { newModules } from './plans.js';

export async function decide(page) {
  const { plan } = page;
  plan.isFirst = plan.kind === 'load' && !page.isAdopted && !page.isSpoiled;
  if (plan.isFirst && followEarly(page)) return;
  const modules = newModules(page);
  plan.made = modules;
  await learn(page, modules);
  plan.cause = await linkFault(page, modules);
  if (plan.cause === null && wantsReload(page, modules)) {
    fire(page, 'vite:beforeFullReload', { type: 'full-reload', path: plan.reason.path });
    page.isLeaving = true;
  }
}

function wantsReload(page, modules) {
  const { plan } = page;
  switch (plan.kind) {
    case 'reload':
      return true;
    case 'load':
      // The plain URLs gave the versions that were served when the page was sent. A later one isn't what was
      // loaded.
      if (plan.isFirst) return modules.some(({ version }) => version > page.count);
      return !page.isAdopted || modules.some(({ name }) => page.live.has(name));
    default:
      return page.hurt !== null || keepsFailed(page, plan);
  }
}

// Whether a module whose evaluation failed is kept; it is mended only by a new instance.
function keepsFailed({ live }, { replaced }) {
  return [...live.values()].some(({ name, failed }) => failed && !replaced.includes(name));
}
