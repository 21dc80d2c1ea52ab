// What takes long: many updates of one page, and an evaluation that doesn't end.
'use strict';

const assert = require('node:assert/strict');
const { CALM, PAGE, after, faultLines } = require('../visit.js');

module.exports = [
  {
    name: '200 updates in a row don\'t slow down',
    isLong: true,
    files: {
      'index.html': PAGE,
      'main.js': 'import "./view.js";\n',
      'view.js': `${Array.from({ length: 20 }, (_, i) => `import { v${i} } from "./k${i}.js";`).join('\n')}
import { n } from "./leaf.js";
window.n = n;
import.meta.hot.accept();
`,
      ...Object.fromEntries(Array.from({ length: 20 }, (_, i) => [`k${i}.js`, `export const v${i} = ${i};\n`])),
      'leaf.js': 'export const n = 0;\n',
    },
    async run(v) {
      const tab = await v.open();
      for (let i = 1; i <= 200; i += 1) {
        v.write('leaf.js', `export const n = ${i};\n`);
        await tab.until(`window.n === ${i} && ${CALM}`);
      }
      const [, ...times] = await tab.value('__hmr.page.browser.times');  // without that of the load
      const median = (list) => [...list].sort((one, other) => one - other)[Math.floor(list.length / 2)];
      const [first, last] = [median(times.slice(0, 40)), median(times.slice(-40))];
      assert.equal(times.length, 200);
      assert.ok(last < first * 1.8 + 5, `${first} ms an update at first, ${last} ms at last`);
      v.told = `${first.toFixed(1)} ms an update at first, ${last.toFixed(1)} ms at last`;
    },
  },
  {
    name: 'an await at the top of a module that doesn\'t end is told after some seconds, and the update goes on with it',
    isLong: true,
    files: {
      'index.html': PAGE,
      'main.js': 'import { n } from "./dep.js"; window.n = n; import.meta.hot.accept("./dep.js", (m) => { window.n = m.n; });\n',
      'dep.js': 'export const n = 1;\n',
    },
    async run(v) {
      const tab = await v.open();
      await after(tab, async () => {
        v.write('dep.js', 'await new Promise((done) => { window.goOn = done; });\nexport const n = 2;\n');
        await tab.until('window.goOn !== undefined');
        await tab.until('__hmr.page.faults.size === 1');
        assert.match(await faultLines(tab), /dep\.js:\S* Its evaluation hasn't ended/);
        await tab.value('goOn()');
      });
      assert.deepEqual([await tab.value('n'), await faultLines(tab)], [2, '']);
    },
  },
];
