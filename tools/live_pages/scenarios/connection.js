// The connection: pages that come and go, and a server that ends and is begun again.
'use strict';

const assert = require('node:assert/strict');
const { pause } = require('../pause.js');
const { CALM, OPENED, PAGE, after, badge, overlay, part, reloads, seen, stale } = require('../visit.js');

const COUNTER = {
  'index.html': PAGE,
  'main.js': `
    import { n } from "./dep.js"; window.n = n;
    import.meta.hot.accept("./dep.js", (m) => { window.n = m.n; seen.push(m.n); });
  `,
  'dep.js': 'export const n = 1;\n',
};

module.exports = [
  {
    name: 'the connection is lost: with the same server the page goes on',
    files: COUNTER,
    async run(v) {
      const tab = await v.open();
      await after(tab, () => v.write('dep.js', 'export const n = 2;\n'));
      const number = await tab.value('__hmr.page.number');
      await tab.value('__hmr.cut()');
      await tab.until(`__hmr.page.number > ${number} && ${CALM}`);
      assert.equal((await stale(tab)).length, 1);
      await after(tab, () => v.write('dep.js', 'export const n = 3;\n'));
      assert.deepEqual(await tab.value('[n, mark, seen]'), [3, 1, [2, 3]]);
    },
  },
  {
    name: 'the server ends and another one is begun: the page waits, and is loaded again',
    files: COUNTER,
    hasErrors: true,
    async run(v) {
      const tab = await v.open();
      await reloads(tab, async () => {
        await v.endProgram();
        await tab.until(`${part('badge')}?.innerText === "hmr: no server"`);
        v.write('dep.js', 'export const n = 4;\n');
        await v.beginProgram();
      });
      assert.equal(await tab.value('n'), 4);
      assert.equal(await badge(tab), '');
    },
  },
  {
    name: 'the key r: a server begins anew at the same port, and the page is loaded again',
    files: COUNTER,
    hasErrors: true,
    async run(v) {
      const tab = await v.open();
      for (let n = 10; n < 13; n += 1) {
        await after(tab, () => v.write('dep.js', `export const n = ${n};\n`));
        v.program.passOver();
        await reloads(tab, () => v.program.says('r'));
        assert.equal((await v.program.told('anew')).why, 'asked');
        assert.equal((await v.program.told('ready')).address, v.program.address);
        assert.deepEqual([await tab.value('n'), await stale(tab)], [n, []]);
      }
    },
  },
  {
    name: 'a save between the page and its hello, and one between the link of a plan and its applied',
    files: COUNTER,
    async run(v) {
      const tab = await v.open();
      const paused = async () => (await tab.takes('Fetch.requestPaused')).requestId;
      const goesOn = (requestId) => tab.call('Fetch.continueRequest', { requestId });
      const isServed = async (n) => {
        v.program.passOver();
        v.write('dep.js', `export const n = ${n};\n`);
        await v.program.told('saved');
        const served = `fetch('dep.js?').then((answer) => answer.text()).then((text) => text.includes('n = ${n}'))`;
        await tab.until(served);
      };
      await tab.call('Fetch.enable', { patterns: [{ urlPattern: '*/@hmr/check/*' }] });
      v.write('dep.js', 'export const n = 2;\n');
      const first = await paused();
      await isServed(3);
      await goesOn(first);
      await goesOn(await paused());
      await tab.until(`window.n === 3 && ${CALM}`);
      assert.deepEqual(await seen(tab), [2, 3]);
      // after the page's GET, before its module's
      await tab.call('Fetch.enable', { patterns: [{ urlPattern: '*/dep.js' }] });
      await tab.value('window.isOld = true');
      const reload = tab.call('Page.reload');
      const second = await paused();
      await reload;
      await isServed(4);
      await goesOn(second);
      await paused();                                  // the client finds a later save than its page: a load
      await tab.call('Fetch.disable');
      await tab.until(`window.isOld === undefined && ${OPENED} && window.n === 4`);
    },
  },
  {
    name: 'saves while the page loads are not lost',
    files: COUNTER,
    async run(v) {
      const tab = await v.open('index.html', 'true');
      for (let n = 2; n <= 20; n += 1) {
        v.write('dep.js', `export const n = ${n};\n`);
        await pause(10);
      }
      await tab.until('window.n === 20');
    },
  },
  {
    name: '32 tabs are open; the 33rd says so, and is loaded once another one is gone',
    files: COUNTER,
    async run(v) {
      v.write('more.txt', 'pages that are gone are noticed at the next save');
      v.write('dep.js', 'export const n = 2;\n');
      await pause(500);
      const tabs = [];
      for (let i = 0; i < 32; i += 1) tabs.push(await v.open());
      const last = await v.open('index.html', `${part('overlay')}?.innerText.includes("32 pages open") === true`);
      assert.equal((await v.program.told('refused')).code, 2);
      await v.close(tabs.pop());
      await last.until(OPENED);
      assert.equal(await overlay(last), '');
      v.write('dep.js', 'export const n = 3;\n');
      for (const tab of [...tabs, last]) await tab.until('window.n === 3');
    },
  },
];
