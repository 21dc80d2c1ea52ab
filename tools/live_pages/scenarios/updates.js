// Updates: which instances are made, to which they are linked, and what stays.
'use strict';

const assert = require('node:assert/strict');
const { PAGE, after, badge, badgeList, part, reloads, seen, stale } = require('../visit.js');

module.exports = [
  {
    name: 'state in the page and in data is kept over an update',
    files: {
      'index.html': `${PAGE}<button id="b"></button>`,
      'main.js': `
        import { Counter } from "./counter.js";
        let c = new Counter(document.querySelector("#b"), 0);
        import.meta.hot.accept("./counter.js", (m) => { c = new m.Counter(c.place, c.count); });
      `,
      'counter.js': `
        export class Counter {
          constructor(place, count) {
            Object.assign(this, { place, count });
            this.draw();
            place.onclick = () => { this.count += 1; this.draw(); };
          }
          draw() { this.place.textContent = \`n = \${this.count}\`; }
        }
        seen.push(["data", import.meta.hot.data.visits ?? 0]);
        import.meta.hot.dispose((data) => { data.visits = (data.visits ?? 0) + 1; });
      `,
    },
    async run(v) {
      const tab = await v.open();
      await tab.value('b.click(), b.click(), b.click()');
      await after(tab, () => v.change('counter.js', 'n = ', 'count: '));
      assert.equal(await tab.value('b.textContent'), 'count: 3');
      await tab.value('b.click()');
      await after(tab, () => v.change('counter.js', 'count: ', 'now '));
      assert.equal(await tab.value('b.textContent'), 'now 4');
      assert.deepEqual(await seen(tab), [['data', 0], ['data', 1], ['data', 2]]);
      assert.equal(await tab.value('mark'), 1);
    },
  },
  {
    name: 'accept of a dependency leaves the old bindings, which the badge, its list and the terminal tell',
    files: {
      'index.html': PAGE,
      'main.js': `
        import { n } from "./dep.js";
        import * as all from "./dep.js";
        window.read = () => [n, all.n];
        import.meta.hot.accept("./dep.js", (m) => { seen.push(["new", m.n, "old", n, all.n]); });
      `,
      'dep.js': 'export let n = 1;\n',
    },
    async run(v) {
      const tab = await v.open();
      assert.deepEqual([await stale(tab), await badge(tab)], [[], '']);
      await after(tab, () => v.write('dep.js', 'export let n = 2;\n'));
      assert.deepEqual(await seen(tab), [['new', 2, 'old', 1, 1]]);
      assert.deepEqual(await tab.value('read()'), [1, 1]);
      const [main, dep] = [v.name('main.js'), v.name('dep.js')];
      const number = await tab.value('__hmr.page.number');
      const hot = await v.program.told('hot', ({ page }) => page === number);
      const [[name, version]] = hot.changed;
      assert.deepEqual([name, hot.changed.length], [dep, 1]);
      assert.deepEqual(hot.accepted, [{ by: main, accepted: dep }]);
      const old = hot.stale[0].linked;
      const binding = { importer: main, imported: dep, linked: old, live: version };
      assert.deepEqual(hot.stale, [{ ...binding, name: 'n' }, { ...binding, name: '*' }]);
      const lines = [`${main} still has n of ${dep} v${old} (now v${version})`,
        `${main} still has ${dep} v${old} (now v${version})`];
      assert.deepEqual(await stale(tab), lines);
      assert.equal(await badge(tab), '2 stale');
      assert.equal(await tab.value(`${part('list')}.hidden`), true);
      await tab.value(`${part('badge')}.click()`);
      assert.equal(await tab.value(`${part('list')}.hidden`), false);
      assert.deepEqual((await badgeList(tab)).slice(0, 2), lines.map((line) => `${line} accepted by ${main}`));
      await after(tab, () => v.write('dep.js', 'export let n = 3;\n'));
      assert.deepEqual(await seen(tab), [['new', 3, 'old', 1, 1]]);
      assert.equal((await v.program.told('hot')).stale[0].linked, old);
    },
  },
  {
    name: 'replaced importers of unchanged version are new instances with new links',
    files: {
      'index.html': PAGE,
      'main.js': 'import "./a.js"; import { kept } from "./kept.js"; seen.push("main");\n',
      'a.js': `
        import { b, tag } from "./b.js"; import { kept } from "./kept.js";
        export const a = [b, tag, kept];
        seen.push(a);
        import.meta.hot.accept();
      `,
      'b.js': `
        export { c as b } from "./c.js"; import { kept } from "./kept.js"; export const tag = {}; seen.push("b");
        window.tags ??= []; tags.push(tag);
      `,
      'c.js': 'export const c = 1; seen.push("c");\n',
      'kept.js': 'export const kept = "kept"; seen.push("kept");\n',
    },
    async run(v) {
      const tab = await v.open();
      assert.deepEqual(await seen(tab), ['c', 'kept', 'b', [1, {}, 'kept'], 'main']);
      await after(tab, () => v.write('c.js', 'export const c = 2; seen.push("c2");\n'));
      assert.deepEqual(await seen(tab), ['c2', 'b', [2, {}, 'kept']]);
      assert.equal(await tab.value('tags.length === 2 && tags[0] !== tags[1]'), true);
      assert.deepEqual(await stale(tab), []);          // main imports a without a name
      const numbers = await tab.value('Object.fromEntries([...__hmr.page.live.values()]'
        + '.map(({ name, number }) => [name.split("/").pop(), number]))');
      assert.deepEqual(numbers, { 'kept.js': 2, 'main.js': 5, 'index.html': 6, 'c.js': 7, 'b.js': 8, 'a.js': 9 });
    },
  },
  {
    name: 'old instances stay linked to old ones, new ones to the live ones',
    files: {
      'index.html': PAGE,
      'main.js': 'import "./x.js"; import "./y.js";\n',
      'x.js': `
        import { n, bump } from "./dep.js"; window.x = () => n; window.bump1 = bump;
        import.meta.hot.accept(); import.meta.hot.accept("./dep.js", () => {});
      `,
      'y.js': `
        import { n } from "./dep.js"; window.y = () => n;
        import.meta.hot.accept(); import.meta.hot.accept("./dep.js", () => {});
      `,
      'dep.js': 'export let n = 1; export const bump = () => { n += 100; };\n',
    },
    async run(v) {
      const tab = await v.open();
      await after(tab, () => v.change('dep.js', 'n = 1;', 'n = 2;'));
      await after(tab, () => v.change('x.js', 'window.x', 'window.moved = window.bump1; window.x'));
      assert.deepEqual(await tab.value('[x(), y()]'), [2, 1]);
      await tab.value('moved()');                      // the old dep's
      assert.deepEqual(await tab.value('[x(), y()]'), [2, 101]);
      await tab.value('bump1()');                      // the new dep's
      assert.deepEqual(await tab.value('[x(), y()]'), [102, 101]);
      assert.match((await stale(tab)).join(), /^\S*y\.js still has n of \S*dep\.js v\d+ \(now v\d+( anew)?\)$/);
    },
  },
  {
    name: 'a live binding of a kept module is seen by a new importer',
    files: {
      'index.html': PAGE,
      'main.js': 'import * as all from "./store.js"; window.all = all; import "./view.js";\n',
      'store.js': `
        export let n = 1;
        export default n;
        export const add = () => { n += 1; };
        export * from "./more.js";
      `,
      'more.js': 'export let far = 10; export const addFar = () => { far += 1; };\n',
      'view.js': `
        import d, { n, add, far, addFar } from "./store.js"; import * as all from "./store.js";
        window.view = () => [d, n, far, all.n, all.far]; window.isSame = () => all === window.all;
        Object.assign(window, { add, addFar });
        import.meta.hot.accept();
      `,
    },
    async run(v) {
      const tab = await v.open();
      await tab.value('add(), addFar()');
      await after(tab, () => v.change('view.js', 'window.view', '/* again */ window.view'));
      assert.deepEqual(await tab.value('view()'), [1, 2, 11, 2, 11]);
      await tab.value('add(), addFar()');
      assert.deepEqual(await tab.value('view()'), [1, 3, 12, 3, 12]);
      assert.equal(await tab.value('isSame()'), true);
    },
  },
  {
    name: 'a cycle loads, is replaced whole, and in part',
    files: {
      'index.html': PAGE,
      'main.js': `
        import { even } from "./even.js"; window.even = even;
        import.meta.hot.accept("./even.js", (m) => { window.even = m.even; });
      `,
      'even.js': `
        import { odd } from "./odd.js";
        export function even(n) { return n === 0 ? "even" : odd(n - 1); }
        seen.push("even");
      `,
      'odd.js': `
        import { even } from "./even.js";
        export function odd(n) { return n === 0 ? "odd" : even(n - 1); }
        export const early = typeof even;
        seen.push("odd");
      `,
    },
    async run(v) {
      const tab = await v.open();
      assert.deepEqual(await tab.value('[even(4), even(5)]'), ['even', 'odd']);
      assert.deepEqual(await seen(tab), ['odd', 'even']);
      await after(tab, () => v.change('odd.js', '"odd" :', '"ODD" :'));
      assert.deepEqual(await tab.value('[even(4), even(5)]'), ['even', 'ODD']);
      assert.deepEqual(await seen(tab), ['odd', 'even']);
      await after(tab, () => v.change('odd.js', 'seen.push', 'import.meta.hot.accept(); seen.push'));
      assert.deepEqual(await seen(tab), ['odd', 'even']);  // the old text counted: the change went on to even
      await after(tab, () => v.change('odd.js', '"ODD" :', '"Odd" :'));
      assert.deepEqual(await seen(tab), ['odd']);          // now only odd
      assert.deepEqual(await tab.value('[even(4), even(5)]'), ['even', 'ODD']);
      assert.match((await stale(tab)).join('\n'), /even\.js still has odd of/);
    },
  },
  {
    name: 'default exports of each form, and a module without one',
    files: {
      'index.html': PAGE,
      'main.js': 'import "./view.js";\n',
      'view.js': `
        import A from "./a.js"; import b from "./b.js"; import c from "./c.js"; import d from "./d.js";
        import e from "./e.js"; import { n } from "./f.js"; import * as f from "./f.js";
        window.view = () => [new A().x, b(), c, d, e, n, "default" in f, Object.keys(f)];
        import.meta.hot.accept();
      `,
      'a.js': 'export default class { x = 1 }\n',
      'b.js': 'export default () => 2;\n',
      'c.js': 'let c = 0;\nexport { c as default };\nc = 3;\n',
      'd.js': 'export { default } from "./c.js";\n',
      'e.js': 'import e from "./b.js"; export default `${e()}!`;\n',
      'f.js': 'export const n = 6; export * from "./a.js";\n',
    },
    async run(v) {
      const tab = await v.open();
      const values = [1, 2, 3, 3, '2!', 6, false, ['n']];
      assert.deepEqual(await tab.value('view()'), values);
      await after(tab, () => v.change('view.js', 'window.view', '/* 2 */ window.view'));
      assert.deepEqual(await tab.value('view()'), values);
      await after(tab, () => v.change('b.js', '2', '20'));
      assert.deepEqual(await tab.value('view()'), [1, 20, 3, 3, '20!', 6, false, ['n']]);
    },
  },
  {
    name: 'a change that nothing accepts loads the page again, with its reason',
    files: {
      'index.html': PAGE,
      'main.js': 'import { n } from "./dep.js"; document.querySelector("#p").textContent = n;\n',
      'dep.js': 'export const n = 1;\n',
    },
    async run(v) {
      const tab = await v.open();
      await reloads(tab, () => v.write('dep.js', 'export const n = 2;\n'));
      assert.equal(await tab.value('p.textContent'), '2');
      const { path } = await v.program.told('reload');
      assert.deepEqual(path, ['dep.js', 'main.js', 'index.html'].map((file) => v.name(file)));
    },
  },
  {
    name: 'names that modules can\'t have: spaces, @, letters beyond ASCII, a dot before a hyphen',
    files: {
      'index.html': PAGE,
      'main.js': `
        import { n } from "./@scope/my%20file.js"; import { m } from "./@scope/é.-x.js";
        window.v = [n, m];
        import.meta.hot.accept(["./@scope/my%20file.js", "./@scope/é.-x.js"], ([a, b]) => {
          window.v = [a?.n ?? window.v[0], b?.m ?? window.v[1]];
        });
      `,
      '@scope/my file.js': 'export const n = 1;\n',
      '@scope/é.-x.js': 'export const m = import.meta.url.split("/").pop();\n',
    },
    async run(v) {
      const tab = await v.open();
      assert.deepEqual(await tab.value('v'), [1, '%C3%A9.-x.js']);
      await after(tab, () => v.write('@scope/my file.js', 'export const n = 2;\n'));
      await after(tab, () => v.write('@scope/é.-x.js', 'export const m = 3;\n'));
      assert.deepEqual(await tab.value('v'), [2, 3]);
      assert.match((await stale(tab)).join('\n'), /main\.js still has n of \S*\/@scope\/my file\.js v/);
      assert.equal(await tab.value('mark'), 1);
    },
  },
];
