// The badge: how many bindings are old, or that something is wrong. It opens a list of them. Where there is
// nothing to say there is no badge.

import { shown } from './names.js';
import { element, part } from './shadow.js';
import { staleWords, stopWords } from './stale.js';

export function showBadge(page) {
  const { stale } = page;
  const badge = part('badge');
  const unfollowed = [...page.unfollowed].map((name) => element('li', `${shown(name)} isn't followed`));
  const rows = [...stale.map(asRow), ...unfollowed];
  [badge.className, badge.textContent] = face(page, stale.length);
  badge.hidden = badge.className === 'good' && rows.length === 0;
  part('list').replaceChildren(...rows, element('li', doings(page)));
  if (badge.hidden) part('list').hidden = true;
}

function face(page, stale) {
  if (page.isAway) return ['away', 'hmr: no server'];
  if (page.faults.size > 0) return ['fault', 'hmr: fault'];
  return stale > 0 ? ['stale', `${stale} stale`] : ['good', 'hmr'];
}

function asRow(edge) {
  const row = element('li', staleWords(edge));
  row.append(element('small', ` ${stopWords(edge)}`));
  return row;
}

function doings({ last, number, live }) {
  const where = `page ${number}, ${live.size} modules`;
  if (last === null || last.kind === 'load') return where;
  return `${where}; the last update: ${last.triggeredBy.map(shown).join(', ')}`;
}
