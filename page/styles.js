// A saved stylesheet takes the place of the one before it, which goes once the new one is there: so the page
// is never bare.

import { isOfServer, nameOf } from './names.js';

export function restyle(name, url) {
  for (const link of document.querySelectorAll('link[rel~=stylesheet][href]')) {
    if (!isOfServer(link.href) || nameOf(link.href) !== name || link.isReplaced) continue;
    const next = Object.assign(link.cloneNode(), { href: url });
    link.isReplaced = true;
    next.onload = next.onerror = () => link.remove();
    link.after(next);
  }
}
