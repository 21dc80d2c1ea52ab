// One page while a script is played: its modules with their versions, its instances and what each is
// linked to, and the plan under way.
//
// The walk, the numbers of instances and the links follow docs/PROTOCOL.md. Lines of `show` and `fates`
// are compared with what was worked out; where they differ, the lines are right and the difference is kept.
'use strict';

class Client {
  constructor(id, format, roots) {
    this.id = id;
    this.format = format;
    this.roots = roots;
    this.loaded = false;
    this.view = new Map(); // by name: version, number, imports, links, ..
    this.instances = []; // by number less 1: name and version
    this.plan = null;
    this.forced = new Set();
    this.notices = new Set();
    this.heldAt = null;
    this.shownStale = null; // where `show` said otherwise than the links
    this.state = 'loading';
  }

  begin(kind, replaced, servings) {
    this.plan = { kind, replaced: new Set(replaced), staged: new Map(), cause: null, servings };
    this.state = { load: 'loading', reload: 'reloading', update: 'updating' }[kind];
  }

  isKept(name) {
    return this.plan.kind === 'update' && !this.plan.replaced.has(name) && this.view.has(name);
  }

  entryAt(name) {
    return this.isKept(name) ? this.view.get(name) : this.plan.staged.get(name);
  }

  /** The walk from the roots: names as they are met, and as they are left. */
  walk(entryOf) {
    const met = [];
    const left = [];
    const seen = new Set();
    const stack = [{ names: this.roots, at: 0, leaves: null }];
    while (stack.length > 0) {
      const top = stack[stack.length - 1];
      if (top.at === top.names.length) {
        stack.pop();
        if (top.leaves !== null) left.push(top.leaves);
        continue;
      }
      const name = top.names[top.at];
      top.at += 1;
      if (seen.has(name)) continue;
      seen.add(name);
      met.push(name);
      stack.push({ names: entryOf(name)?.imports ?? [], at: 0, leaves: name });
    }
    return { met, left };
  }

  /** The module that the plan fetches next; null where all are there. */
  nextNeeded() {
    const { met } = this.walk((name) => this.entryAt(name));
    return met.find((name) => this.entryAt(name) === undefined) ?? null;
  }

  /** The modules that no imports from a root reach. */
  dropped() {
    const { met } = this.walk((name) => this.view.get(name));
    const reached = new Set(met);
    return [...this.view.keys()].filter((name) => !reached.has(name));
  }

  changed(server) {
    return [...this.view].filter(([name, entry]) => server.served.get(name)?.version !== entry.version)
      .map(([name]) => name);
  }

  isHeld(server) {
    return this.heldAt !== null && this.heldAt === server.servings;
  }

  /** The plan is applied: new instances are numbered and linked. Answers their names. */
  apply(kind, server) {
    if (this.plan === null) this.begin(kind, [], server.servings);
    this.plan.kind = kind;
    const { left } = this.walk((name) => this.entryAt(name) ?? server.served.get(name));
    const fresh = left.filter((name) => !this.isKept(name));
    const next = new Map(kind === 'update' ? this.view : []);
    fresh.forEach((name) => {
      const entry = this.plan.staged.get(name) ?? server.served.get(name) ?? { version: 0, imports: [], accepts: [] };
      this.instances.push({ name, version: entry.version });
      next.set(name, { ...entry, number: this.instances.length, links: new Map(), fault: null });
    });
    this.view = next;
    fresh.forEach((name) => {
      const entry = this.view.get(name);
      entry.imports.forEach((to) => entry.links.set(to, this.view.get(to)?.number ?? null));
    });
    this.loaded = true;
    this.forced.clear();
    this.plan = null;
    this.heldAt = null;
    this.shownStale = null;
    this.state = 'loaded';
    return fresh;
  }

  abort() {
    this.heldAt = this.plan?.servings ?? null;
    this.plan = null;
    this.state = this.loaded ? 'update given up' : 'load given up';
  }

  prune(name) {
    this.view.delete(name);
    this.forced.delete(name);
  }

  staleEdges() {
    const edges = [];
    for (const [from, entry] of this.view) {
      for (const to of entry.imports) {
        const held = entry.links.get(to) ?? null;
        if (held !== (this.view.get(to)?.number ?? null)) edges.push({ from, to, held });
      }
    }
    return edges;
  }

  isStale(from, to, held) {
    if (this.shownStale !== null) return this.shownStale.has(`${from} ${to}`);
    return held !== (this.view.get(to)?.number ?? null);
  }

  /** Modules and edges, for the drawing. */
  snapshot(server) {
    const modules = [...this.view].map(([name, entry]) => ({
      name,
      version: entry.version,
      number: entry.number,
      served: server.served.get(name)?.version ?? null,
      root: this.roots.includes(name),
      acceptsItself: entry.acceptsItself,
      declines: entry.declines,
      forced: this.forced.has(name),
      fault: entry.fault,
    }));
    const edges = [...this.view].flatMap(([from, entry]) => entry.imports.map((to) => {
      const held = entry.links.get(to) ?? null;
      const stale = this.isStale(from, to, held);
      return {
        from,
        to,
        accepted: entry.accepts.includes(to),
        stale,
        held: stale && held !== null ? this.instances[held - 1].version : null,
      };
    }));
    return { id: this.id, format: this.format, roots: this.roots, state: this.state, modules, edges };
  }
}

module.exports = { Client };
