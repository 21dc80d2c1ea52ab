// What goes wrong, kept until it is mended: the fault of a text by the name of its module, that of a plan
// under '', and that of the browser's own load under 'load'. A fault has a message and, where they are
// known, the name, line and column, and what stays as it was. It ends where its module is live at another
// version, or as another instance, than when it came.

import { fire } from './handlers.js';
import { shown } from './names.js';
import { importersOf } from './plans.js';

const WORDS = {
  'open-string': 'The string or template that begins here isn\'t closed.',
  'open-comment': 'The comment that begins here isn\'t closed.',
  unexpected: 'This is unexpected here, or a bracket before it isn\'t closed.',
  'bad-byte': 'JavaScript has no such character.',
};

/** Keeps a fault, and shows it. */
export function told(page, key, fault) {
  page.faults.set(key, fault);
  page.show();
}

/** The fault of a text that the server couldn't read. */
export function tellText(page, { path, line, column, kind }) {
  const message = WORDS[kind] ?? kind;
  told(page, path, { message, name: path, line, column, had: page.live.get(path)?.module.version });
  fire(page, 'vite:error', { type: 'error', err: { message, id: path } });
}

/** Forgets the faults that a plan that was carried out has mended. */
export function forgetMended(page, plan) {
  page.faults.delete('');
  if (page.hurt === null && plan.kind === 'update') page.faults.delete('load');
  page.faults.forEach(({ had, instance }, key) => {
    const live = page.live.get(key);
    const isMended = instance === undefined ? live?.module.version !== had : live !== instance;
    if (isMended && key !== 'load') page.faults.delete(key);
  });
}

/** The plan under way is given up: the page is as it was before. */
export function giveUp(page) {
  const { kind, cause } = page.plan;
  const fault = faultOf(page, page.plan.cause);
  page.faults.delete('load');
  if (!(cause.cause === 'broken' && cause.at === undefined && page.faults.has(cause.path))) {
    const isWhole = kind !== 'load' || page.isAdopted;
    const stays = isWhole ? 'The page is as it was before.' : 'The page couldn\'t be loaded whole.';
    told(page, '', { ...fault, stays });
  }
  const extra = kind === 'load' ? lostExtra(page, cause) : undefined;
  if (extra !== undefined) {              // it can't be followed: the page says hello anew without it
    const { refuse } = page.extras.get(extra);
    page.extras.delete(extra);
    refuse?.(new TypeError(`${fault.message} (${fault.name}:${fault.line})`));
    page.isFollowing = true;
  } else if (kind === 'load') {
    page.isSpoiled = true;
  }
  fire(page, 'vite:error', { type: 'error', err: { ...fault, id: fault.name } });
  page.plan = null;
}

// The further root by which a load failed: the one that is new on the page, or the one that is wrong itself.
function lostExtra({ extras }, { path }) {
  const news = [...extras].find(([, { done }]) => done !== undefined);
  return news?.[0] ?? [...extras.keys()].find((name) => name === path);
}

function faultOf(page, { cause, path, from, name, at }) {
  const { line, column } = at ?? {};
  switch (cause) {
    case 'missing': {
      const [importer] = importersOf(page, path);
      const found = importer?.imports.find(({ to }) => to === path);
      return { message: `${shown(path)} isn't there.`, name: importer?.name, line: found?.line };
    }
    case 'link':
      return { message: `${shown(from)} has no export ${name}.`, name: path, line, column };
    default:
      return { message: at?.message ?? 'It can\'t be read.', name: at?.place ?? path, line, column };
  }
}
