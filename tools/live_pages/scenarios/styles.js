// Stylesheets, and modules of data and styles.
'use strict';

const assert = require('node:assert/strict');
const { HEAD, PAGE, after, faults, seen } = require('../visit.js');

module.exports = [
  {
    name: 'styles are changed in place, also by their @import',
    files: {
      'index.html': `${HEAD}<link rel="stylesheet" href="style.css">
        <script type="module" src="./main.js"></script><p id="p">x</p>`,
      'main.js': 'window.loaded = true;\n',
      'style.css': '@import url("base.css");\np { color: rgb(1, 2, 3); }\n',
      'base.css': 'p { margin-left: 10px; }\n',
    },
    async run(v) {
      const tab = await v.open();
      const look = '[getComputedStyle(p).color, getComputedStyle(p).marginLeft].join(" ")';
      assert.equal(await tab.value(look), 'rgb(1, 2, 3) 10px');
      await after(tab, () => v.write('base.css', 'p { margin-left: 20px; }\n'));
      await tab.until(`${look} === "rgb(1, 2, 3) 20px"`);
      await after(tab, () => v.change('style.css', '1, 2, 3', '4, 5, 6'));
      await tab.until(`${look} === "rgb(4, 5, 6) 20px"`);
      await tab.until('document.querySelectorAll("link[rel=stylesheet]").length === 1');
      assert.equal(await tab.value('mark'), 1);
    },
  },
  {
    name: 'JSON and CSS modules by import attributes',
    files: {
      'index.html': PAGE,
      'main.js': `
        import { n } from "./use.js"; window.n = n;
        import.meta.hot.accept("./use.js", (m) => { window.n = m.n; });
      `,
      'use.js': `
        import data from "./data.json" with { type: "json" };
        import sheet from "./sheet.css" with { type: "css" };
        export const n = [data.n, sheet.cssRules[0].selectorText];
      `,
      'data.json': '{ "n": 1 }\n',
      'sheet.css': 'em { color: red }\n',
    },
    async run(v) {
      const tab = await v.open();
      assert.deepEqual(await tab.value('n'), [1, 'em']);
      await after(tab, () => v.write('data.json', '{ "n": 2 }\n'));
      await after(tab, () => v.write('sheet.css', 'strong { color: red }\n'));
      assert.deepEqual(await tab.value('n'), [2, 'strong']);
      await after(tab, () => v.change('use.js', '.n, sheet', '.n * 1, sheet'));    // both are kept
      assert.deepEqual(await faults(tab), []);
      assert.deepEqual(await tab.value('n'), [2, 'strong']);
      await after(tab, () => v.write('data.json', '{ "n": 2, }\n'));
      assert.equal((await faults(tab)).length, 1);
      assert.deepEqual(await tab.value('n'), [2, 'strong']);
    },
  },
  {
    name: 'data and styles that a module accepts: its callbacks get the new ones',
    files: {
      'index.html': PAGE,
      'main.js': `
        import data from "./data.json" with { type: "json" };
        import sheet from "./sheet.css" with { type: "css" };
        seen.push(data.n, sheet.cssRules[0].selectorText);
        import.meta.hot.accept("./data.json", (m) => seen.push(m.default.n, data.n));
        import.meta.hot.accept("./sheet.css", (m) => seen.push(m.default.cssRules[0].selectorText));
      `,
      'data.json': '{ "n": 1 }\n',
      'sheet.css': 'em { color: red }\n',
    },
    async run(v) {
      const tab = await v.open();
      await after(tab, () => v.write('data.json', '{ "n": 2 }\n'));
      await after(tab, () => v.write('sheet.css', 'strong { color: red }\n'));
      assert.deepEqual(await seen(tab), [1, 'em', 2, 1, 'strong']);
    },
  },
];
