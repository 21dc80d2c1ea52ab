// Random graphs of modules that import each other, and random saves of them. After each, the links of the
// browser's own modules are compared with those that the client planned, and the stale bindings of the page
// with those at the terminal.
'use strict';

const assert = require('node:assert/strict');
const { pause } = require('../pause.js');
const { CALM, PAGE, faults } = require('../visit.js');

const MODULES = 9;
const UPDATES = 100;
const MOST_STEPS = 300;
const SETTLED = `__hmr.page.isAdopted && ${CALM}`;

/** Numbers below a bound, by a seed. */
function dice(seed) {
  let state = seed;
  return (bound) => {
    state = (state * 1103515245 + 12345) % 2147483648;
    return Math.floor(state / 65536) % bound;
  };
}

function textOf(number, { imports, acceptsItself, accepts, saved }) {
  const links = imports.map((each) => `m${each}: i${each}`).join(', ');
  return [
    ...imports.map((each) => `import { id as i${each} } from "./m${each}.js";`),
    `// ${saved}`,
    'export const id = {};',
    `ran.push({ url: import.meta.url, id, links: () => ({ ${links} }) });`,
    ...(acceptsItself ? ['import.meta.hot.accept();'] : []),
    ...accepts.map((each) => `import.meta.hot.accept("./m${each}.js", () => {});`),
  ].map((line) => `${line}\n`).join('');
}

function drawn(below, number, saved) {
  const some = Array.from({ length: below(4) }, () => below(MODULES));
  const imports = [...new Set(some)].filter((each) => each !== number);
  return { imports, acceptsItself: below(3) === 0, accepts: imports.filter(() => below(4) === 0), saved };
}

/** On the page: what is wrong with the instances that ran, 'right' where nothing is. */
function check() {
  const { page } = globalThis.__hmr;
  const { ran } = globalThis;
  const isOne = ({ name }) => /\/m\d\.js$/.test(name);
  const byUrl = new Map(ran.map((each) => [each.url.slice(location.origin.length), each]));
  if (byUrl.size !== ran.length) return 'one was evaluated twice';
  for (const { url, links } of [...page.live.values()].filter(isOne)) {
    const own = byUrl.get(url);
    if (own === undefined) return `${url} wasn't evaluated`;
    const native = own.links();
    for (const [to, held] of links) {
      if (native[to.split('/').pop().slice(0, 2)] !== byUrl.get(held.url)?.id) return `${url} links ${to} wrongly`;
    }
    if (Object.keys(native).length !== links.size) return `${url} has other links`;
  }
  const made = [...page.byUrl.values()].filter(isOne).length;
  if (made !== ran.length) return `${made} were made, ${ran.length} evaluated`;
  // instances of the last plan that are on no cycle run in the order of their numbers
  const reaches = (from, to, met = new Set()) => page.live.get(from).module.targets
    .some((each) => each === to || (!met.has(each) && reaches(each, to, met.add(each))));
  const plan = page.last.isFirst ? '' : page.last.id;
  const numbers = [...byUrl.keys()].map((url) => page.byUrl.get(url))
    .filter((each) => each === page.live.get(each.name) && each.plan === plan && !reaches(each.name, each.name))
    .map(({ number }) => number);
  const sorted = [...numbers].sort((one, other) => one - other);
  return String(numbers) === String(sorted) ? 'right' : `the order is ${numbers}`;
}

/** The stale bindings of the page, as the terminal has them. */
const EDGES = `(async () => {
  const rows = __hmr.edges().map(({ name, what, to, held, now }) => (
    [name, to, what, held.module.version, now.module.version].join(' ')));
  return rows.sort();
})()`;

/** The stale bindings of a page at the terminal: those that the last update or load told, without modules that were
 *  pruned since. */
function toldBindings(lines, number) {
  let told = [];
  for (const { event, page, stale = [], modules } of lines) {
    if (page !== number) continue;
    if (event === 'hot' || event === 'loaded') told = stale;
    if (event === 'pruned') told = told.filter(({ importer }) => !modules.includes(importer));
  }
  return told.map((each) => [each.importer, each.imported, each.name, each.linked, each.live].join(' ')).sort();
}

/** What is wrong at the terminal; undefined where nothing is. Its lines may come a moment after the page's update. */
async function wrongOfTerminal(v, tab) {
  const number = await tab.value('__hmr.page.number');
  const rows = await tab.value(EDGES);
  let told;
  for (let i = 0; i < 100; i += 1) {
    told = toldBindings(v.program.lines, number);
    if (String(told) === String(rows)) return undefined;
    await pause(20);
  }
  return `the page has ${rows.join('; ')}, the terminal ${told.join('; ')}`;
}

module.exports = [
  {
    name: 'random graphs and saves: each native link is the planned one, each instance runs once',
    files: { 'index.html': PAGE.replace('window.seen', 'window.ran = []; window.seen'), 'main.js': '' },
    async run(v) {
      const below = dice(12345);
      const shapes = Array.from({ length: MODULES }, (_, number) => drawn(below, number, 1));
      shapes.forEach((shape, number) => v.write(`m${number}.js`, textOf(number, shape)));
      v.write('main.js', `
        import "./m0.js"; import "./m1.js"; import "./m2.js";
        import.meta.hot.accept(["./m0.js", "./m1.js"], () => {});
      `);
      await pause(400);
      const tab = await v.open();
      const count = { updates: 0, loads: 0, stale: 0, instances: 0 };
      for (let step = 0; step < MOST_STEPS && count.updates < UPDATES; step += 1) {
        await tab.value('window.isOld = true');
        const made = await tab.value('__hmr.page.made');
        for (let left = below(3); left >= 0; left -= 1) {
          const number = below(MODULES);
          const saved = shapes[number].saved + 1;
          shapes[number] = below(3) === 0 ? drawn(below, number, saved) : { ...shapes[number], saved };
          v.write(`m${number}.js`, textOf(number, shapes[number]));
        }
        await pause(120);
        await tab.until(SETTLED);
        await pause(30);
        await tab.until(SETTLED);
        assert.equal(await tab.value(`(${check})()`), 'right', `step ${step}`);
        assert.equal(await wrongOfTerminal(v, tab), undefined, `step ${step}`);
        assert.deepEqual(await faults(tab), []);
        const isOld = await tab.value('window.isOld === true');
        const more = isOld ? await tab.value('__hmr.page.made') - made : 0;
        if (!isOld) count.loads += 1;
        else if (more > 0) count.updates += 1;
        count.instances += more;
        count.stale += (await tab.value('__hmr.stale()')).length;
      }
      assert.equal(count.updates, UPDATES);
      v.told = JSON.stringify(count);
    },
  },
];
