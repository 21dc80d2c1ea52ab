// The overlay: each fault with its file, line and column, the line of the text, and what stays. Escape
// closes it; it opens again with another fault, and goes with the last one.

import { plainUrl, shown } from './names.js';
import { element, part } from './shadow.js';

let last = '';

export function showFaults({ faults }) {
  const all = [...faults.values()];
  const told = all.map(({ name, line, column, message, stays }) => [name, line, column, message, stays].join()).join();
  if (told === last) return;
  last = told;
  const overlay = part('overlay');
  overlay.hidden = all.length === 0;
  overlay.replaceChildren(...all.map(asElement));
}

function asElement({ name, line, column, message, stays = '' }) {
  const box = document.createElement('div');
  const isHere = name?.startsWith('/');
  const place = [isHere ? shown(name) : name, line, column].filter((each) => each !== undefined);
  const text = element('pre', '');
  box.append(element('b', place.join(':')), element('pre', message), text, element('small', stays));
  if (isHere && line !== undefined) showLine(text, name, line, column);
  return box;
}

// The line as the file has it now, with a caret below the column.
async function showLine(place, name, line, column) {
  const answer = await fetch(`/@hmr/file${plainUrl(name)}`).catch(() => null);
  if (answer === null || !answer.ok) return;
  const found = (await answer.text()).split('\n')[line - 1];
  if (found === undefined || found.length > 500) return;
  const blanks = found.slice(0, (column ?? 1) - 1).replace(/[^\t]/g, ' ');
  place.textContent = column === undefined ? found : `${found}\n${blanks}^`;
}
