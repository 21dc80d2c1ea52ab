// The example app, each line of its README.md.
'use strict';

const assert = require('node:assert/strict');
const { readFileSync, readdirSync } = require('node:fs');
const { join } = require('node:path');
const { OPENED, after, badge, badgeList, faultLines, overlay, reloads, stale } = require('../visit.js');

const APP = join(__dirname, '..', '..', '..', 'examples', 'app');

/** The files of a folder and of those in it, by path. */
function filesOf(folder, above = '') {
  return readdirSync(folder, { withFileTypes: true }).flatMap((entry) => {
    const path = join(folder, entry.name);
    return entry.isDirectory() ? filesOf(path, `${above}${entry.name}/`) : [[above + entry.name, readFileSync(path, 'utf8')]];
  });
}

const button = 'document.querySelector("#view button")';

module.exports = [{
  name: 'the example app: each line of its README.md',
  files: Object.fromEntries(filesOf(APP)),
  async run(v) {
    const tab = await v.open('index.html', `${OPENED} && ${button} !== null`);
    assert.deepEqual([await badge(tab), await tab.value('__hmr.page.extras.size')], ['', 0]);
    await tab.value(`window.mark = 1; for (let i = 0; i < 3; i += 1) ${button}.click()`);
    assert.equal(await tab.value(`${button}.textContent`), 'count is 3');

    await after(tab, () => v.change('pages/counter.js', 'count is', 'the count is'));
    await tab.until(`${button}.textContent === "the count is 3"`);

    await after(tab, () => v.change('pages/step.js', '1', '5'));
    await tab.until(`${button}.textContent === "the count is 3"`);
    await tab.value(`${button}.click()`);
    assert.equal(await tab.value(`${button}.textContent`), 'the count is 8');
    assert.deepEqual(await stale(tab), []);

    await after(tab, () => v.write('theme.css', ':root { --ink: rgb(1, 2, 3); }\n'));
    await tab.until('getComputedStyle(document.body).color === "rgb(1, 2, 3)"');

    await tab.value('void (location.hash = "#/notes")');
    await tab.until('document.querySelector("note-list input") !== null');
    await tab.value('document.querySelector("note-list input").value = "a third"');
    await tab.value('document.querySelector("note-list input").onkeydown({ key: "Enter" })');
    await after(tab, () => v.change('pages/note_list.js', '"li"', '"p"'));
    await tab.until('document.querySelectorAll("note-list p").length === 3');
    assert.equal(await tab.value('document.querySelector("note-list p:last-child").textContent'), 'a third');
    assert.deepEqual(await stale(tab), []);

    await after(tab, () => v.change('footer.js', 'Save', 'Please save'));
    assert.match(await tab.value('document.querySelector("#foot").textContent'), /^Please save/);
    assert.equal(await badge(tab), '1 stale');
    assert.match((await badgeList(tab))[0], /\/main\.js still has footer of \S*\/footer\.js v\d+ \(now v\d+\) accepted by/);

    await tab.value('void (location.hash = "#/about")');
    await tab.until('document.querySelector("#view p")?.textContent === "This is version 1.0."');
    await after(tab, () => v.change('pages/version.js', '1.0', '2.0'));
    assert.equal(await tab.value('document.querySelector("#view p").textContent'), 'This is version 1.0.');
    assert.equal(await badge(tab), '2 stale');
    assert.match((await stale(tab)).join('\n'), /about\.js still has version of \S*version\.js v\d+ \(now v\d+\)/);

    await after(tab, () => v.change('pages/home.js', 'view()', 'view('));
    assert.match(await faultLines(tab), /pages\/home\.js:\d+:\d+ /);
    await tab.until('document.querySelector("hmr-page").shadowRoot.getElementById("overlay").innerText.includes("^")');
    await tab.press('Escape');
    assert.equal(await overlay(tab), '');
    await after(tab, () => v.change('pages/home.js', 'view(', 'view()'));
    assert.equal(await faultLines(tab), '');
    assert.equal(await tab.value('mark'), 1);

    for (const file of ['elements.js', 'vendor/signal.js']) {
      v.program.passOver();
      await reloads(tab, () => v.change(file, 'export', '\nexport'));
      const { path } = await v.program.told('reload');
      assert.deepEqual([path[0], path.at(-1)], [v.name(file), v.name('index.html')]);
      assert.equal(await badge(tab), '');
    }
  },
}];
