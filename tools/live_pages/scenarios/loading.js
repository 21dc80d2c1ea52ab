// How pages and their modules are loaded: by the browser first, and later by import().
'use strict';

const assert = require('node:assert/strict');
const {
  CALM, HEAD, PAGE, after, badge, faults, overlay, part, reloads, seen, stale,
} = require('../visit.js');

module.exports = [
  {
    name: 'F5 ten times: each load is fresh, and each page goes when the next comes',
    files: {
      'index.html': PAGE,
      'main.js': `
        import { n } from "./dep.js"; window.n = n;
        import.meta.hot.accept("./dep.js", (m) => { window.n = m.n; });
      `,
      'dep.js': 'export const n = 1;\n',
    },
    async run(v) {
      const tab = await v.open();
      await after(tab, () => v.write('dep.js', 'export const n = 2;\n'));
      assert.equal((await stale(tab)).length, 1);
      for (let i = 0; i < 10; i += 1) {
        const old = await tab.value('__hmr.page.number');
        await reloads(tab, () => tab.call('Page.reload'));
        assert.notEqual(await tab.value('__hmr.page.number'), old);
        assert.deepEqual([await tab.value('n'), await stale(tab)], [2, []]);
      }
      await after(tab, () => v.write('dep.js', 'export const n = 3;\n'));
      assert.equal(await tab.value('n'), 3);
    },
  },
  {
    name: 'two pages at once, each with a client of its own',
    files: {
      'index.html': PAGE,
      'main.js': `
        import { n } from "./dep.js"; window.n = n;
        import.meta.hot.accept("./dep.js", (m) => { window.n = m.n; });
      `,
      'dep.js': 'export const n = 1;\n',
    },
    async run(v) {
      const one = await v.open();
      const two = await v.open();
      const [first, second] = await Promise.all([one, two].map((tab) => tab.value('__hmr.page.number')));
      assert.notEqual(first, second);
      await after(one, () => after(two, () => v.write('dep.js', 'export const n = 2;\n')));
      assert.deepEqual(await Promise.all([one, two].map((tab) => tab.value('n'))), [2, 2]);
      await reloads(one, () => one.call('Page.reload'));
      assert.deepEqual([(await stale(one)).length, (await stale(two)).length], [0, 1]);
      await after(one, () => after(two, () => v.write('dep.js', 'export const n = 3;\n')));
      assert.deepEqual([await one.value('n'), await two.value('n')], [3, 3]);
      await v.close(two);
      await after(one, () => v.write('dep.js', 'export const n = 4;\n'));
      assert.equal(await one.value('n'), 4);
    },
  },
  {
    name: 'top-level await, on load and in an update',
    files: {
      'index.html': PAGE,
      'main.js': `
        import { n } from "./slow.js"; import { q } from "./quick.js"; window.n = n; seen.push("main");
        import.meta.hot.accept("./slow.js", (m) => { window.n = m.n; seen.push("taken"); });
      `,
      'slow.js': `
        seen.push("slow begins");
        await new Promise((done) => setTimeout(done, 150));
        export const n = 1; seen.push("slow ends");
      `,
      'quick.js': 'export const q = 1; seen.push("quick");\n',
    },
    async run(v) {
      const tab = await v.open();
      await tab.until('window.n === 1');
      assert.deepEqual(await seen(tab), ['slow begins', 'quick', 'slow ends', 'main']);
      await after(tab, () => v.change('slow.js', 'n = 1', 'n = 2'));
      assert.deepEqual(await seen(tab), ['slow begins', 'slow ends', 'taken']);
      assert.equal(await tab.value('n'), 2);
    },
  },
  {
    name: 'import() of a literal: not evaluated early, and always the live instance',
    files: {
      'index.html': PAGE,
      'main.js': `
        window.go = async () => {
          const before = 1
          const { n } = await import("./lazy.js")
          return n
        };
      `,
      'lazy.js': `
        import { x } from "./x.js"; export const n = x; seen.push(\`lazy \${n}\`);
        import.meta.hot.accept((m) => seen.push(["accepted", m.n]));
      `,
      'x.js': 'export const x = 1;\n',
    },
    async run(v) {
      const tab = await v.open();
      assert.deepEqual(await seen(tab), []);
      await after(tab, () => v.change('x.js', 'x = 1', 'x = 2'));
      assert.deepEqual(await seen(tab), []);
      assert.equal(await tab.value('go()'), 2);
      assert.deepEqual(await seen(tab), ['lazy 2']);
      await after(tab, () => v.change('x.js', 'x = 2', 'x = 3'));
      assert.deepEqual(await seen(tab), ['lazy 3', ['accepted', 3]]);
      assert.equal(await tab.value('go()'), 3);
      assert.deepEqual(await seen(tab), []);
      assert.deepEqual(await stale(tab), []);
    },
  },
  {
    name: 'import() of a computed name is followed from then on',
    files: {
      'index.html': PAGE,
      'main.js': `
        window.go = async (name) => { const { text } = await import(\`./pages/\${name}.js\`); return text; };
        import { shared } from "./shared.js"; import.meta.hot.accept("./shared.js", () => {});
      `,
      'shared.js': 'export const shared = 1; seen.push("shared");\n',
      'pages/one.js': `
        import { shared } from "../shared.js"; export const text = \`one \${shared}\`; seen.push(text);
        import.meta.hot.accept(); import.meta.hot.accept("../shared.js", () => {});
      `,
      'pages/two.js': 'export const text = "two";\n',
      'pages/bad.js': 'export const text = "bad;\n',
      'early.html': `${HEAD}<script type="module" src="./early.js"></script>`,
      'early.js': 'window.early = (await import(`./pages/${"two"}.js`)).text;\n',
    },
    hasErrors: true,
    async run(v) {
      const tab = await v.open();
      await after(tab, () => v.change('shared.js', 'shared = 1', 'shared = 2'));
      assert.deepEqual(await seen(tab), ['shared', 'shared']);
      assert.equal(await tab.value('go("one")'), 'one 2');
      assert.deepEqual(await seen(tab), ['one 2']);
      await after(tab, () => v.change('pages/one.js', '`one', '`ONE'));
      assert.equal(await tab.value('go("one")'), 'ONE 2');
      assert.match(await tab.value('go("none").catch((error) => error.message)'), /none\.js isn't there/);
      assert.match(await tab.value('go("bad").catch((error) => String(error))'), /bad\.js|Invalid or unexpected/);
      await tab.until(CALM);
      assert.equal(await tab.value('go("two")'), 'two');
      assert.match((await stale(tab)).join(), /main\.js still has shared of/);
      // a root that doesn't accept itself
      await reloads(tab, () => v.write('pages/two.js', 'export const text = "TWO";\n'));
      // before the page said hello
      const early = await v.open('early.html');
      await early.until('window.early === "TWO"');
      assert.deepEqual(await early.value('[...__hmr.page.extras.keys()]'), [v.name('pages/two.js')]);
      await reloads(early, () => v.write('pages/two.js', 'export const text = "2";\n'));
      await early.until('window.early === "2"');
    },
  },
  {
    name: 'an import map with a vendored bare module; a change of it loads the page again',
    files: {
      'index.html': `${HEAD}<script type="importmap">{ "imports": {
        "tiny": "./vendor/tiny.js", "no": "./vendor/no.js", "unused": "./vendor/unused.js"
      } }</script><script type="module" src="./main.js"></script>`,
      'main.js': 'import { t } from "tiny"; import "./view.js"; window.t = t;\n',
      'view.js': 'import { t } from "tiny"; window.view = t; import.meta.hot.accept();\n',
      'vendor/tiny.js': 'export const t = { v: 1 };\n',
      'vendor/unused.js': 'seen.push("never");\n',
    },
    async run(v) {
      const tab = await v.open();
      await after(tab, () => v.change('view.js', 'window.view', '/* 2 */ window.view'));
      assert.equal(await tab.value('view === t'), true);     // one instance of the bare module
      assert.deepEqual(await seen(tab), []);
      await reloads(tab, () => v.write('vendor/tiny.js', 'export const t = { v: 2 };\n'));
      assert.equal(await tab.value('view.v'), 2);
    },
  },
  {
    name: 'inline module scripts, several scripts, DOMContentLoaded',
    files: {
      'index.html': `${HEAD}<script type="module" src="./main.js"></script>
        <script type="module">
          import { n } from './dep.js'; window.inline = n;
          import.meta.hot.accept('./dep.js', (m) => { window.inline = m.n; });
          seen.push('inline');
        </script><p id="p"></p>`,
      'main.js': `
        import "./dep.js"; seen.push(["main", document.readyState]);
        addEventListener("DOMContentLoaded", () => seen.push("DOMContentLoaded"));
        import.meta.hot.accept("./dep.js", () => {});
      `,
      'dep.js': 'export const n = 1;\n',
    },
    async run(v) {
      const tab = await v.open();
      assert.deepEqual(await seen(tab), [['main', 'interactive'], 'inline', 'DOMContentLoaded']);
      await after(tab, () => v.write('dep.js', 'export const n = 2;\n'));
      assert.equal(await tab.value('inline'), 2);
      await reloads(tab, () => v.change('index.html', '<p id', '<b></b><p id'));
    },
  },
  {
    name: 'a page that allows scripts of its own server alone; a classic script',
    files: {
      'index.html': '<!doctype html><meta http-equiv="Content-Security-Policy" content="default-src \'self\'; img-src data:">'
        + '<link rel="icon" href="data:,"><script src="./pre.js"></script><script type="module" src="./main.js"></script>',
      'pre.js': 'window.seen = [];\n',
      'main.js': `
        import { n } from "./dep.js"; window.n = n;
        import.meta.hot.accept("./dep.js", (m) => { window.n = m.n; });
      `,
      'dep.js': 'export const n = 1;\n',
    },
    async run(v) {
      const tab = await v.open();
      await after(tab, () => v.write('dep.js', 'export const n = 2;\n'));
      assert.equal(await tab.value('n'), 2);
      await after(tab, () => v.write('dep.js', 'export const n = 2 +;\n'));
      const [{ name, line }] = await faults(tab);
      assert.deepEqual([name, line], [v.name('dep.js'), 1]);
      assert.equal(await tab.value(`getComputedStyle(${part('badge')}).position`), 'fixed');
      await reloads(tab, () => {
        v.write('dep.js', 'export const n = 3;\n');
        v.write('pre.js', 'window.seen = [3];\n');
      });
      assert.deepEqual(await tab.value('[n, seen]'), [3, [3]]);
    },
  },
  {
    name: 'import.meta.url, assets by it, and a worker',
    files: {
      'index.html': PAGE,
      'main.js': 'import "./lib/view.js";\n',
      'lib/view.js': `
        import { tell } from "./tell.js";
        window.n = 1; window.asset = new URL("./a.txt", import.meta.url).href;
        window.ask = () => new Promise((done) => {
          const worker = new Worker(new URL("./worker.js", import.meta.url), { type: "module" });
          worker.onmessage = ({ data }) => done(data);
          worker.onerror = ({ message }) => done(String(message));
        });
        import.meta.hot.accept();
      `,
      'lib/a.txt': 'asset',
      'lib/worker.js': 'import { tell } from "./tell.js"; postMessage(tell());\n',
      'lib/tell.js': 'export const tell = () => `told, hot is ${typeof import.meta.hot}`;\n',
    },
    async run(v) {
      const tab = await v.open();
      const told = 'told, hot is undefined';
      assert.equal(await tab.value('ask()'), told);
      await after(tab, () => v.change('lib/view.js', 'window.n = 1', 'window.n = 2'));
      assert.equal(await tab.value('fetch(asset).then((a) => a.text())'), 'asset');
      assert.match(await tab.value('asset'), /127\.0\.0\.1:\d+\/\w+\/lib\/a\.txt$/);
      assert.equal(await tab.value('ask()'), told);
    },
  },
  {
    name: 'hashbang, byte order mark, CRLF, root-relative, odd names, Unicode',
    files: {
      'index.html': PAGE,
      'main.js': '#!/usr/bin/env node\r\nimport { "odd name" as odd, é } from "./dep.js";\r\nwindow.v = [odd, é];\r\n'
        + 'if (import.meta.hot) import.meta.hot?.accept("./dep.js", (m) => { window.v = [m["odd name"], m.é]; });\r\n',
      'dep.js': '\ufeffimport { r } from "/ROOT/deep/r.js"; const x = r; export { x as "odd name" };'
        + ' export const é = `${x}${/[`"/]/.source.length}`; // import "nope"\n',
      'deep/r.js': 'import * as up from "../up.js";\nexport const r = up.u;\n',
      'up.js': 'export const u = 1;\n',
    },
    async run(v) {
      const tab = await v.open();
      assert.deepEqual(await tab.value('v'), [1, '15']);
      for (const n of [2, 3]) {
        await after(tab, () => v.write('up.js', `export const u = ${n};\n`));
        assert.deepEqual(await tab.value('v'), [n, `${n}5`]);
      }
    },
  },
  {
    name: '?hmr-quiet leaves the badge and the overlay away',
    files: {
      'index.html': PAGE,
      'main.js': `
        import { n } from "./dep.js"; window.n = n;
        import.meta.hot.accept("./dep.js", (m) => { window.n = m.n; });
      `,
      'dep.js': 'export const n = 1;\n',
    },
    async run(v) {
      const tab = await v.open('index.html?hmr-quiet');
      await after(tab, () => v.write('dep.js', 'export const n = 2;\n'));
      await after(tab, () => v.write('dep.js', 'export const n = ;\n'));
      assert.deepEqual([(await stale(tab)).length, (await faults(tab)).length], [1, 1]);
      assert.equal(await tab.value('document.querySelector("hmr-page")'), null);
      assert.deepEqual([await badge(tab), await overlay(tab)], ['', '']);
    },
  },
];
