// Bindings that are old: an importer is linked to an instance that isn't the live one.

import { shown } from './names.js';

/** Each old binding: who imports, which name (`*` for all), of which module, the instance that is held,
 *  and the live one or undefined. */
export function staleEdges(page) {
  const found = [];
  for (const { name, module, links } of page.live.values()) {
    if (module.kind !== 'js') continue;
    links.forEach((held, to) => {
      const now = page.live.get(to);
      if (held === undefined || held === now) return;
      for (const what of bound(module, to)) found.push({ name, what, to, held, now });
    });
  }
  return found;
}

// The names that a module binds of another one; an import without names binds nothing, and neither does
// import().
function bound({ imports, stars }, to) {
  const names = imports.filter((each) => each.to === to && !each.dynamic).flatMap((each) => each.names);
  return new Set(stars.includes(to) ? [...names, '*'] : names);
}

/** An old binding in words: `/main.js still has count of /counter.js v6 (now v7)`. */
export function staleWords({ name, what, to, held, now }) {
  const which = what === '*' ? shown(to) : `${what} of ${shown(to)}`;
  return `${shown(name)} still has ${which} v${held.module.version} (now ${after(held, now)})`;
}

function after(held, now) {
  if (now === undefined) return 'gone';
  const { version } = now.module;
  return version === held.module.version ? `v${version} anew` : `v${version}`;
}

/** The accept at which the update stopped that made a binding old: `accepted by /main.js`. */
export function stopWords({ name, to, held }) {
  const paths = held.accepts.filter(({ acceptedPath }) => acceptedPath === to).map(({ path }) => path);
  if (paths.includes(name)) return `accepted by ${shown(name)}`;
  return paths.includes(to) ? `${shown(to)} accepts itself` : '';
}
