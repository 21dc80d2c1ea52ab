// import() in a module. It gives the instance that is live at the call, so it is never stale. A module of a
// computed name that the page hasn't is followed from then on: it becomes one root more.

import { absolute, isOfServer, isScript, nameOf } from './names.js';
import { walk } from './plans.js';

const MOST_EXTRAS = 15;                   // beside the page's own root; a client has 16 at most

/** Before the page is adopted: whether it imported a module that its imports don't reach, so that it has
 *  to say hello anew with that one as a root. */
export function followEarly(page) {
  const { met } = walk(page);
  const unmet = [...page.early].filter((name) => !met.has(name));
  page.early.clear();
  unmet.slice(0, MOST_EXTRAS).forEach((name) => page.extras.set(name, {}));
  unmet.slice(MOST_EXTRAS).forEach((name) => page.unfollowed.add(name));
  page.isFollowing = unmet.length > 0;
  return page.isFollowing;
}

export async function importLive(page, importer, specifier, options) {
  const text = String(specifier);
  if (!/^(\.{0,2}\/(?!\/)|https?:)/.test(text)) return page.browser.importModule(text, options);
  const { href, search, hash } = new URL(text, importer);
  const name = nameOf(href);
  const isFollowed = isOfServer(href) && search === '' && hash === '' && isScript(name);
  if (!isFollowed) return page.browser.importModule(href, options);
  if (!page.saidHello) {
    page.early.add(name);
  } else {
    await page.adopted;
    if (!page.live.has(name) && canFollow(page)) await follow(page, name);
    if (page.live.has(name)) return page.browser.importModule(absolute(page.live.get(name).url), options);
    page.unfollowed.add(name);
  }
  return page.browser.importModule(href, options);
}

// What an update evaluates can't wait for a hello: that waits for the end of the update.
function canFollow({ extras, isEvaluating }) {
  return extras.size < MOST_EXTRAS && !isEvaluating;
}

// The page says hello anew with a root more, and keeps what it has.
function follow(page, name) {
  return new Promise((done, refuse) => {
    page.extras.set(name, { done, refuse });
    page.isFollowing = true;
    page.browser.wake(page);
  });
}
