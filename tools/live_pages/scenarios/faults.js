// Faults: of texts, of links, of evaluations, of loads. The page stays, and the overlay says what is wrong.
'use strict';

const assert = require('node:assert/strict');
const { CALM, COUNTS, HEAD, PAGE, after, faultLines, faults, overlay, reloads, seen } = require('../visit.js');

const GIVEN_UP = `${COUNTS}.aborted === 1 && ${CALM}`;

module.exports = [
  {
    name: 'a name exported twice is refused, directly and by two stars',
    files: {
      'index.html': PAGE,
      'main.js': 'import { v } from "./dep.js"; window.v = () => v; import.meta.hot.accept();\n',
      'dep.js': 'export * from "./one.js";\nexport * from "./two.js";\n',
      'one.js': 'export const v = 1;\n',
      'two.js': 'export const w = 2;\n',
    },
    async run(v) {
      const tab = await v.open();
      await after(tab, () => v.write('two.js', 'export const w = 2;\nexport const v = 2;\n'));
      const [fault] = await faults(tab);
      assert.match(fault.message, /ambiguous|conflict|export named 'v'/i);
      assert.match(fault.name, /main\.js$/);
      assert.equal(await tab.value('v()'), 1);
      await after(tab, () => v.write('two.js', 'export const w = 2;\nconst x = 1;\nexport { x, w as x };\n'));
      assert.match(await faultLines(tab), /two\.js:3:\d+ .*Duplicate export/);
      await after(tab, () => v.write('two.js', 'export const w = 3;\n'));
      assert.deepEqual(await faults(tab), []);
      assert.equal(await tab.value('mark'), 1);
    },
  },
  {
    name: 'a syntax error leaves the page; the overlay has its line, and Escape closes it',
    files: {
      'index.html': PAGE,
      'main.js': `
        import { n } from "./dep.js"; window.n = () => n;
        import.meta.hot.accept("./dep.js", (m) => seen.push(m?.n));
      `,
      'dep.js': `
        import "./other.js";
        export let n = 1;
        import.meta.hot.dispose(() => seen.push("disposed"));
      `,
      'other.js': '// nothing\n',
    },
    async run(v) {
      const tab = await v.open();
      const wrong = [
        ['export let n = 1;\n\n\tconst const = 2;\n', /dep\.js:3:8[^]*\tconst const = 2;\n\t {6}\^/],
        ['export let n = 1;\nlet n = 2;\n', /dep\.js:2:5[^]*let n = 2;\n {4}\^/],
        ['export let n = `open;\n', /dep\.js:1:16[^]*export let n = `open;\n {15}\^/],
        ['export let n = 2;\nawait 1; function f() { await 2 }\n', /dep\.js:2:/],
      ];
      for (const [text, words] of wrong) {
        await after(tab, () => v.write('dep.js', text));
        await tab.until(`${words}.test(document.querySelector("hmr-page")?.shadowRoot.getElementById("overlay").innerText)`);
        await tab.press('Escape');
        assert.equal(await overlay(tab), '');
        assert.deepEqual(await seen(tab), []);
        assert.equal(await tab.value('n()'), 1);
      }
      await after(tab, () => v.write('other.js', 'export {;\n'));
      await after(tab, () => v.write('dep.js', 'export let n = 5;\n'), 2);
      assert.deepEqual(await seen(tab), ['disposed', 5]);
      assert.deepEqual(await faults(tab), []);
      assert.equal(await overlay(tab), '');
    },
  },
  {
    name: 'a text that the scan refuses is told at the terminal, and holds no other module up',
    files: {
      'index.html': PAGE,
      'main.js': 'import "./a.js"; import "./b.js";\n',
      'a.js': 'window.a = 1; import.meta.hot.accept();\n',
      'b.js': 'window.b = 1; import.meta.hot.accept();\n',
    },
    async run(v) {
      const tab = await v.open();
      await after(tab, () => v.write('a.js', 'window.a = 2;\n  let s = "open;\nimport.meta.hot.accept();\n'));
      const fault = await v.program.told('fault');
      assert.deepEqual([fault.module, fault.line, fault.column, fault.kind, fault.text],
        [v.name('a.js'), 2, 11, 'open-string', '  let s = "open;']);
      assert.match(await faultLines(tab), /a\.js:2:11 The string or template that begins here isn't closed/);
      await after(tab, () => v.change('b.js', '1', '2'));
      assert.deepEqual(await tab.value('[a, b]'), [1, 2]);
      assert.equal((await faults(tab)).length, 1);
      await after(tab, () => v.write('a.js', 'window.a = (3); import.meta.hot.accept();\n'));
      assert.deepEqual(await tab.value('[a, b]'), [3, 2]);
      assert.deepEqual(await faults(tab), []);
    },
  },
  {
    name: 'an import of a missing export leaves the page',
    files: {
      'index.html': PAGE,
      'main.js': `
        import { n } from "./mid.js"; window.n = () => n;
        import.meta.hot.accept("./mid.js", (m) => seen.push(m.n));
      `,
      'mid.js': `
        export { n } from "./dep.js"; seen.push("mid");
        import.meta.hot.dispose(() => seen.push("disposed"));
      `,
      'dep.js': 'export let n = 1;\n',
    },
    async run(v) {
      const tab = await v.open();
      await seen(tab);
      await after(tab, () => v.write('dep.js', 'export let m = 1;\n'));
      assert.deepEqual(await seen(tab), []);
      assert.match(await faultLines(tab), /mid\.js:1:\d+ \S*dep\.js has no export n/);
      const { cause, path, from, name } = await v.program.told('aborted');
      assert.deepEqual([cause, path, from, name], ['link', v.name('mid.js'), v.name('dep.js'), 'n']);
      assert.equal(await tab.value('n()'), 1);
      await after(tab, () => v.write('dep.js', 'export let m = 1, n = 7;\n'));
      assert.deepEqual(await seen(tab), ['disposed', 'mid', 7]);
    },
  },
  {
    name: 'a reload waits where the new page would fail',
    files: {
      'index.html': PAGE,
      'main.js': 'import { n } from "./dep.js"; document.querySelector("#p").textContent = n;\n',
      'dep.js': 'export const n = 1;\n',
    },
    async run(v) {
      const tab = await v.open();
      await after(tab, () => v.write('dep.js', 'export const n = ;\n'));
      assert.match((await faults(tab))[0].name, /dep\.js/);
      assert.equal(await tab.value('mark'), 1);
      await reloads(tab, () => v.write('dep.js', 'export const n = 2;\n'));
      assert.equal(await tab.value('p.textContent'), '2');
      assert.deepEqual(await faults(tab), []);
    },
  },
  {
    name: 'a fault of evaluation in an update: the rest goes on, and the next save mends it without a load',
    files: {
      'index.html': PAGE,
      'main.js': `
        import { n } from "./dep.js"; import "./b.js"; window.n = n;
        import.meta.hot.accept("./dep.js", (m) => { seen.push(m?.n ?? null); });
        import.meta.hot.accept("./b.js", () => seen.push("b taken"));
      `,
      'dep.js': 'import { low } from "./low.js"; export const n = low;\n',
      'b.js': 'import "./low.js"; seen.push("b");\n',
      'low.js': 'export const low = 1;\n',
    },
    hasErrors: true,
    async run(v) {
      const tab = await v.open();
      await seen(tab);
      await after(tab, () => v.write('dep.js', `
        import { low } from "./low.js";
        export const n = low;

        null.x;
      `));
      assert.deepEqual(await seen(tab), [null]);
      assert.match(await faultLines(tab), /dep\.js:4:6 TypeError/);
      assert.equal(tab.errors().length, 1);
      await after(tab, () => v.write('low.js', 'throw new Error("low");\nexport const low = 1;\n'));
      assert.deepEqual(await seen(tab), ['b taken', null]);  // neither b nor dep is run; callbacks get undefined
      const states = await tab.value('Object.fromEntries([...__hmr.page.live.values()]'
        + '.map(({ name, state }) => [name.split("/").pop(), state]))');
      assert.deepEqual(states,
        { 'index.html': 'done', 'main.js': 'done', 'low.js': 'faulted', 'dep.js': 'unrun', 'b.js': 'unrun' });
      await after(tab, () => {
        v.write('low.js', 'export const low = 5;\n');
        v.write('dep.js', 'import { low } from "./low.js"; export const n = low;\n');
      });
      assert.equal((await faults(tab)).length, 0);
      assert.equal(await tab.value('mark'), 1);
    },
  },
  {
    name: 'a fault of evaluation while the page loads: the next change loads it again',
    files: {
      'index.html': PAGE,
      'main.js': `
        import { n } from "./dep.js"; import { u } from "./u.js"; window.n = n;
        import.meta.hot.accept("./dep.js", (m) => { seen.push(m?.n); });
      `,
      'dep.js': '// line 1\nexport const n = undefined.x;\n',
      'u.js': 'export const u = 1; import.meta.hot.accept();\n',
    },
    hasErrors: true,
    async run(v) {
      const tab = await v.open();
      assert.match(await faultLines(tab), /dep\.js:2:28 TypeError/);
      await reloads(tab, () => v.write('dep.js', 'export const n = 2;\n'));
      assert.equal(await tab.value('n'), 2);
      assert.deepEqual(await faults(tab), []);
    },
  },
  {
    name: 'a page that can\'t be loaded is told, and loaded when it is mended',
    files: {
      'index.html': PAGE,
      'main.js': 'import { n } from "./dep.js"; window.n = n;\n',
      'dep.js': 'export const n = 1 1;\n',
    },
    hasErrors: true,
    async run(v) {
      const tab = await v.open('index.html', GIVEN_UP);
      const told = await faults(tab);
      assert.equal(told.length, 1);
      assert.match(`${told[0].name}:${told[0].line} ${told[0].stays}`, /dep\.js:1 The page couldn't be loaded whole/);
      await reloads(tab, () => v.write('dep.js', 'export const n = 3;\n'));
      assert.equal(await tab.value('n'), 3);
    },
  },
  {
    name: 'a missing module is told with its importer\'s line; one that goes leaves the page',
    files: {
      'index.html': PAGE,
      'main.js': 'seen.push(1);\nimport "./gone.js";\n',
      'other.html': `${HEAD}<script type="module" src="./other.js"></script>`,
      'other.js': 'import { d } from "./d.js"; window.d = d; import.meta.hot.accept("./d.js");\n',
      'd.js': 'export const d = 1;\n',
    },
    hasErrors: true,
    async run(v) {
      const tab = await v.open('index.html', GIVEN_UP);
      assert.match(await faultLines(tab), /main\.js:2:\w+ \S*gone\.js isn't there/);
      await reloads(tab, () => v.write('gone.js', 'seen.push("here");\n'));
      assert.deepEqual(await seen(tab), ['here', 1]);
      const other = await v.open('other.html');
      await after(other, () => v.remove('d.js'));
      assert.match((await faults(other))[0].message, /d\.js isn't there/);
      assert.equal(await other.value('d'), 1);
      await after(other, () => v.write('d.js', 'export const d = 2;\n'));
      assert.deepEqual(await faults(other), []);
    },
  },
];
