// The turns of the protocol: the request that is pending, and what its answer does.

import { prune } from './carrying_out.js';
import { decide } from './deciding.js';
import { giveUp, told, tellText } from './faults.js';
import { learn, readModule } from './modules.js';
import { beginPlan, beginsPlan, importersOf, tableAfter, unfetched } from './plans.js';

const ANSWERS = {
  hello: ['connected', 'refused'],
  ask: ['connected', 'error', 'prune', 'full-reload', 'update', 'idle'],
  fetch: ['text', 'not-yet', 'broken', 'missing'],
  applied: ['done', 'refused'],
  aborted: ['done'],
  invalidate: ['done', 'refused'],
  bye: ['done'],
};

/** The request that is to be sent next. It may link the modules of the plan under way. */
export async function pendingRequest(page) {
  if (page.number === 0) {
    page.saidHello = true;
    page.isFollowing = false;
    page.plan = null;
    return { type: 'hello', format: 2, roots: [page.root, ...page.extras.keys()] };
  }
  if (page.isLeaving) return { type: 'bye' };
  const { plan } = page;
  if (plan === null) {
    if (page.isFollowing) return { type: 'bye' };
    return page.invalidations[0] ?? { type: 'ask' };
  }
  if (plan.cause === null) {
    const path = unfetched(page);
    if (path !== undefined) return { type: 'fetch', path };
    await decide(page);
  }
  if (plan.cause !== null) {
    const { cause, path, from = null, name = null } = plan.cause;
    return { type: 'aborted', cause, path, from, name };
  }
  const isPutOff = plan.isFirst && page.isFollowing;
  return page.isLeaving || isPutOff ? { type: 'bye' } : { type: 'applied', table: tableAfter(page) };
}

/** Takes the answer to a request. A plan is carried out once its `applied` is sent, beside the answer. */
export async function take(page, request, answer) {
  const { type, path } = answer;
  if (!ANSWERS[request.type].includes(type)) {
    throw new Error(`${JSON.stringify(request)} was answered ${JSON.stringify(answer)}`);
  }
  switch (request.type) {
    case 'applied':
      if (type === 'refused') throw new Error(`applied was refused: ${JSON.stringify(answer)}`);
      break;
    case 'aborted':
      giveUp(page);
      break;
    case 'invalidate':
      page.invalidations.shift();
      if (type === 'done') page.forced.add(request.path);
      break;
    case 'hello':
      if (type === 'refused') tellRefusal(page, answer.code);
      break;
  }
  if (type === 'connected') {
    page.number = answer.client;
    page.roots = answer.roots;
  }
  if (beginsPlan(answer)) beginPlan(page, answer);
  if (type === 'prune') prune(page, answer.paths);
  if (type === 'error' || type === 'broken') tellText(page, answer);
  if (type === 'broken') page.plan.cause = { cause: 'broken', path };
  if (type === 'missing') {
    page.plan.cause = { cause: 'missing', path };
    await learn(page, importersOf(page, path));
  }
  if (type === 'text') page.plan.staged.set(path, moduleOf(page, answer));
  else page.show();
}

// A module that the page has at this version is known already.
function moduleOf(page, { path, version, text }) {
  const known = page.live.get(path)?.module;
  return known?.version === version ? known : readModule(path, version, text);
}

function tellRefusal(page, code) {
  const isFull = code === 2;
  told(page, '', {
    message: isFull ? 'The server has 32 pages open, as many as it takes.' : `The server refused this page (${code}).`,
    stays: isFull ? 'This one is loaded once another one is gone.' : 'Nothing is updated here.',
  });
}
