// Whether the browser can link the new modules of a plan. The server is told where their instances will be;
// then a module is imported whose first import throws and whose others are all new modules: a browser
// fetches, parses and links a whole graph before it evaluates any of it, so the throw says that everything
// is linked and nothing ran.

import { versionsOf } from './modules.js';
import { isScript } from './names.js';
import { walk } from './plans.js';

/** The cause for which the plan is given up, null where everything is linked. */
export async function linkFault(page, modules) {
  await tellPlan(page, modules);
  const address = `/@hmr/check/${page.plan.id}`;
  const fault = await page.browser.link(address);
  return fault === null ? null : causeOf(page, modules, fault);
}

// `made` are the new modules that are evaluated with others, so that the check links them; `kept` is where
// each other instance is that they import.
function tellPlan(page, modules) {
  const { plan } = page;
  const made = new Set(modules.map(({ name }) => name));
  const kept = {};
  for (const to of modules.flatMap(({ targets }) => targets)) {
    const held = made.has(to) ? undefined : page.live.get(to);
    if (held !== undefined) kept[to] = [held.plan, held.module.version];
  }
  const { met } = page.plan.walk.left.some(hasClassic) ? walk(page, isImported) : page.plan.walk;
  const linked = modules.filter(({ name }) => !isScript(name) || met.has(name));
  return page.browser.tellPlan({ plan: plan.id, plain: plan.isFirst, made: versionsOf(linked), kept });
}

// Whether a module has another one by the tag of a classic script.
function hasClassic({ imports }) {
  return imports.some(({ role }) => role === 'script');
}

// Whether a module imports another one otherwise than by a tag of a classic script or a stylesheet.
function isImported({ imports }, name) {
  return imports.some(({ to, role }) => to === name && role !== 'script' && role !== 'style');
}

function causeOf(page, modules, { error, name: place, line, column, message = String(error) }) {
  const lacking = lackingImport(page, modules);
  const at = { line, column, message, place };
  if (lacking !== undefined) return { cause: 'link', ...lacking, at };
  const path = modules.some(({ name }) => name === place) ? place : modules[0].name;
  return { cause: 'broken', path, at };
}

// The first import of a new module that finds no export, read off the texts; it puts in words what the
// browser refused.
function lackingImport(page, modules) {
  const fresh = new Map(modules.map((module) => [module.name, module]));
  const asLive = (instance) => instance && {
    module: instance.module,
    to: (name) => asLive(instance.links.get(name)),
  };
  const asMade = (module) => ({
    module,
    to: (name) => (fresh.has(name) ? asMade(fresh.get(name)) : asLive(page.live.get(name))),
  });
  for (const module of modules) {
    for (const { to: from, names, dynamic } of module.imports) {
      const name = dynamic ? undefined : names.find((each) => !exports(asMade(module).to(from), each));
      if (name !== undefined) return { path: module.name, from, name };
    }
  }
  return undefined;
}

// Whether a module exports a name: itself, through a named re-export, or by one of its `export *`.
function exports(at, name, seen = new Set()) {
  if (at === undefined || name === '*' || at.module.kind !== 'js') return true;
  const key = `${at.module.name} ${name}`;
  if (seen.has(key)) return false;
  seen.add(key);
  const through = at.module.through.find(([own]) => own === name);
  if (through !== undefined) return through[1] === null || exports(at.to(through[1]), through[2], seen);
  if (at.module.exports.includes(name)) return true;
  const mayHave = (star) => star === null || exports(at.to(star), name, seen);
  return name !== 'default' && at.module.stars.some(mayHave);
}
