// The handlers of modules: which run, in which order, and with what.
'use strict';

const assert = require('node:assert/strict');
const { PAGE, after, reloads, seen } = require('../visit.js');

module.exports = [
  {
    name: 'disposers run by falling number, evaluation rises, callbacks come last',
    files: {
      'index.html': PAGE,
      'main.js': `
        import { a } from "./a.js"; import { z } from "./z.js";
        import.meta.hot.accept(["./z.js", "./a.js"], ([z, a]) => seen.push(["call", z?.z ?? null, a?.a ?? null]));
      `,
      'a.js': `
        import { n } from "./n.js"; export const a = n; seen.push("a");
        import.meta.hot.dispose((d) => { seen.push("-a"); d.was = a; });
        seen.push(import.meta.hot.data.was ?? null);
      `,
      'z.js': `
        import { n } from "./n.js"; export const z = -n; seen.push("z");
        import.meta.hot.dispose(() => seen.push("-z (never)"));
        import.meta.hot.dispose(() => seen.push("-z"));
      `,
      'n.js': 'export const n = 1; seen.push("n"); import.meta.hot.dispose(() => seen.push("-n"));\n',
    },
    async run(v) {
      const tab = await v.open();
      assert.deepEqual(await seen(tab), ['n', 'a', null, 'z']);
      await after(tab, () => v.change('n.js', 'n = 1', 'n = 2'));
      assert.deepEqual(await seen(tab),
        ['-z', '-a', '-n', 'n', 'a', 1, 'z', ['call', null, 2], ['call', -2, null]]);
    },
  },
  {
    name: 'a self-accepting module: its callback is the old one\'s and gets the new module',
    files: {
      'index.html': PAGE,
      'main.js': 'import { n } from "./dep.js"; window.main = n;\n',
      'dep.js': 'export let n = 1;\nimport.meta.hot.accept((m) => { seen.push([n, m.n]); n = m.n; });\n',
    },
    async run(v) {
      const tab = await v.open();
      await after(tab, () => v.change('dep.js', 'n = 1', 'n = 2'));
      await after(tab, () => v.change('dep.js', 'n = 2', 'n = 3'));
      assert.deepEqual(await seen(tab), [[1, 2], [2, 3]]);
    },
  },
  {
    name: 'a module whose import was removed is pruned, and comes back without data',
    files: {
      'index.html': PAGE,
      'main.js': 'import "./list.js";\n',
      'list.js': 'import "./item.js"; import.meta.hot.accept();\n',
      'item.js': `
        seen.push(["item", import.meta.hot.data.x ?? 0]); import.meta.hot.data.x = 1;
        import.meta.hot.dispose(() => seen.push("dispose")); import.meta.hot.prune(() => seen.push("prune"));
      `,
    },
    async run(v) {
      const tab = await v.open();
      await after(tab, () => v.write('list.js', 'import.meta.hot.accept();\n'), 2);
      assert.deepEqual(await seen(tab), [['item', 0], 'dispose', 'prune']);
      assert.equal(await tab.value('[...__hmr.page.live.keys()].some((name) => name.endsWith("item.js"))'), false);
      await after(tab, () => v.write('list.js', 'import "./item.js"; import.meta.hot.accept();\n'));
      assert.deepEqual(await seen(tab), [['item', 0]]);
    },
  },
  {
    name: 'invalidate in a callback goes on to the importers; on a click it does so at once',
    files: {
      'index.html': PAGE,
      'main.js': `
        import { n } from "./dep.js"; window.n = n;
        import.meta.hot.accept("./dep.js", (m) => { seen.push(["main", m.n]); });
      `,
      'dep.js': `
        export const n = 1;
        import.meta.hot.accept((m) => {
          if (m.n > 2) import.meta.hot.invalidate("too large"); else seen.push(["self", m.n]);
        });
        window.stopIt = () => import.meta.hot.invalidate();
      `,
    },
    async run(v) {
      const tab = await v.open();
      await after(tab, () => v.change('dep.js', 'n = 1', 'n = 2'));
      // who accepts a self-accepting one by name is called too
      assert.deepEqual(await seen(tab), [['self', 2], ['main', 2]]);
      await after(tab, () => v.change('dep.js', 'n = 2', 'n = 3'), 2);
      assert.deepEqual(await seen(tab), [['main', 3], ['main', 3]]);
      const begun = Date.now();
      await after(tab, () => tab.value('stopIt()'));
      assert.deepEqual(await seen(tab), [['main', 3]]);
      assert.ok(Date.now() - begun < 10000, 'an ask that is held ends at once');
    },
  },
  {
    name: 'a module that declines loads the page again',
    files: {
      'index.html': PAGE,
      'main.js': 'import "./mid.js"; import.meta.hot.accept();\n',
      'mid.js': 'import { n } from "./dep.js"; window.n = n; import.meta.hot.decline();\n',
      'dep.js': 'export const n = 1;\n',
    },
    async run(v) {
      const tab = await v.open();
      await reloads(tab, () => v.write('dep.js', 'export const n = 2;\n'));
      assert.equal(await tab.value('n'), 2);
      assert.deepEqual((await v.program.told('reload')).path, [v.name('dep.js'), v.name('mid.js')]);
    },
  },
  {
    name: 'events of an update, events of one\'s own, and off',
    files: {
      'index.html': PAGE,
      'main.js': `
        import "./dep.js"; import.meta.hot.accept("./dep.js", () => seen.push("taken"));
        const gone = () => seen.push("never");
        import.meta.hot.on("vite:beforeUpdate", ({ updates }) => seen.push(["before", updates.length]));
        import.meta.hot.on("vite:afterUpdate", () => seen.push("after"));
        import.meta.hot.on("my:ping", (value) => seen.push(value));
        import.meta.hot.on("my:ping", gone); import.meta.hot.off("my:ping", gone);
      `,
      'dep.js': 'export {};\n',
    },
    async run(v) {
      const tab = await v.open();
      await after(tab, () => v.write('dep.js', 'export const n = 2;\n'));
      await tab.value('__hmr.fire("my:ping", 7)');
      assert.deepEqual(await seen(tab), [['before', 1], 'taken', 'after', 7]);
    },
  },
];
