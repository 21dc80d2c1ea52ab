// What this page knows of itself: its connection's number, its instances, the plan under way.

import { Instance } from './modules.js';
import { isOfServer, nameOf, planOf, urlOf } from './names.js';

export class Page {
  /** `id` is the number that the server gave this page, `root` the name of its HTML, `run` that of the
   *  server's run, and `count` the largest number up to which every edit had its result when the page
   *  was sent. */
  constructor({ id, root, run, count }, browser) {
    this.id = id;
    this.root = root;
    this.run = run;
    this.count = count;
    this.browser = browser;

    this.cut = () => {};                  // closes the connection
    this.number = 0;                      // of the client that the server knows this page as, 0 for none
    this.roots = [];
    this.saidHello = false;
    this.isAsking = false;                // an ask is out, which the server may hold
    this.isAway = false;                  // there is no server
    this.isLeaving = false;               // the browser loads the page again
    this.isFollowing = false;             // the page says hello anew, with one root more
    this.isAdopted = false;               // what the browser loaded by itself is known as instances
    this.isEvaluating = false;            // an update's instances are
    this.isSpoiled = false;               // the load was given up: the page is to be loaded again
    this.hurt = null;                     // what an evaluation threw while the browser loaded the page

    this.plan = null;
    this.plans = 0;
    this.names = [];                      // that were told last, sorted
    this.stale = [];                      // bindings that are old, as of the last plan
    this.last = null;                     // the plan that was carried out last

    this.made = 0;                        // instances so far
    this.byUrl = new Map();
    this.live = new Map();                // by name
    this.bags = new Map();                // import.meta.hot.data, by name
    this.extras = new Map();              // further roots: modules that were imported by a computed name
    this.early = new Set();               // what import() was called for before the page said hello
    this.unfollowed = new Set();
    this.invalidations = [];              // that the server wasn't told yet
    this.forced = new Set();              // modules that were invalidated since the last plan
    this.faults = new Map();
    this.adopted = new Promise((done) => { this.adopt = done; });
  }

  /** The instance whose text is at an absolute URL; undefined where none is known. */
  instanceOf(url) {
    return isOfServer(url) ? this.byUrl.get(urlOf(planOf(url), nameOf(url))) : undefined;
  }

  /** The instance of a module that a plan made; it is new where there is none yet. */
  instanceAt(plan, name) {
    const url = urlOf(plan, name);
    if (!this.byUrl.has(url)) this.byUrl.set(url, new Instance(name, plan));
    return this.byUrl.get(url);
  }

  bag(name) {
    if (!this.bags.has(name)) this.bags.set(name, {});
    return this.bags.get(name);
  }

  /** Shows what there is to say of the page. */
  show() {
    this.browser.show(this);
  }
}
