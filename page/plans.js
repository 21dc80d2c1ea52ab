// A plan: a load, a reload or an update while it is fetched, and what it makes of the page. Nothing here
// asks the browser.

const KINDS = { connected: 'load', update: 'update', 'full-reload': 'reload' };

/** Whether an answer begins a plan. */
export function beginsPlan(answer) {
  return answer.type in KINDS;
}

/** The plan that an answer begins. `cause` is why it is given up, null while it isn't. */
export function beginPlan(page, answer) {
  const { batch = 0, triggeredBy = [], replaced = [], updates = [], cause = null, path = [] } = answer;
  page.plans += 1;
  const id = `${page.id}.${page.plans}`;
  const told = { kind: KINDS[answer.type], batch, triggeredBy, replaced, updates, reason: { cause, path } };
  const progress = { walk: walkOf(page), staged: new Map() };
  page.plan = { id, ...told, ...progress, cause: null, isFirst: false };
}

/** The module of this name as the plan makes the page, where it is kept or was fetched. */
export function entryOf(page, name) {
  const { plan } = page;
  const isKept = plan.kind === 'update' && !plan.replaced.includes(name);
  return (isKept ? page.live.get(name)?.module : undefined) ?? plan.staged.get(name);
}

// A walk from the roots by imports: the names that it met, and the modules in the order in which it left
// them. Ahead of it are names, and modules that it leaves once it comes back to them.
function walkOf({ roots }) {
  return { met: new Set(), left: [], ahead: [...roots].reverse() };
}

// Goes on with a walk. Where it meets a module that there isn't, it stays before it and gives its name.
function goOn(page, { met, left, ahead }, follows = () => true) {
  while (ahead.length > 0) {
    const next = ahead.pop();
    if (typeof next !== 'string') left.push(next);
    else if (!met.has(next)) {
      const entry = entryOf(page, next);
      if (entry === undefined) {
        ahead.push(next);
        return next;
      }
      met.add(next);
      ahead.push(entry, ...entry.targets.filter((to) => follows(entry, to)).reverse());
    }
  }
  return undefined;
}

/** The walk through all modules that there are, by the imports that it follows. */
export function walk(page, follows) {
  const whole = walkOf(page);
  while (goOn(page, whole, follows) !== undefined) whole.met.add(whole.ahead.pop());
  return whole;
}

/** The module that the plan has to fetch next: the first that the walk meets without having it. */
export function unfetched(page) {
  return goOn(page, page.plan.walk);
}

/** The modules that import another one, as the plan makes the page. */
export function importersOf(page, name) {
  return walk(page).left.filter(({ targets }) => targets.includes(name));
}

/** The modules that the plan makes instances of, in the order of their numbers. A load keeps what is live
 *  at its version. */
export function newModules(page) {
  const { plan: { kind, staged }, live } = page;
  const isKept = ({ name, version }) => kind === 'load' && live.get(name)?.module.version === version;
  return page.plan.walk.left.filter((module) => staged.get(module.name) === module && !isKept(module));
}

/** The names and versions that the page has once the plan is carried out, as `applied` tells them. Names are
 *  sorted where they are others than the last time. */
export function tableAfter(page) {
  const { plan: { kind, walk: { left } }, live } = page;
  const after = new Map();
  if (kind === 'update') live.forEach(({ module }, name) => after.set(name, module.version));
  left.forEach(({ name, version }) => after.set(name, version));
  const isSame = page.names.length === after.size && page.names.every((name) => after.has(name));
  if (!isSame) page.names = [...after.keys()].sort();
  return page.names.map((name) => [name, after.get(name)]);
}
