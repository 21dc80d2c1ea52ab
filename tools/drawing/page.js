// The page: the list of steps at the side, the sources and pages at the chosen one, and the keys.
'use strict';

const steps = JSON.parse(document.getElementById('drawing').textContent);
const { draw, escaped } = PICTURE;
steps.scale = Math.max(...Object.values(steps.layouts).map((layout) => layout.width), 0) < 560 ? 1.25 : 1;
const list = document.querySelector('.steps');
const place = (id) => document.getElementById(id);
let chosen = 0;

function lineOf(line) {
  const word = /^(stale) |^\d+ (reload|accept) /.exec(line);
  return word === null ? escaped(line) : `<span class="${word[1] ?? word[2]}">${escaped(line)}</span>`;
}

function headOf(command) {
  if (command === null) return '<h2>after the script</h2>';
  const note = command.note === '' ? '' : `<p>${escaped(command.note)}</p>`;
  return `<h2><span>line ${command.line}</span>${escaped(command.said)}</h2>${note}`;
}

function fillList() {
  let shown;
  list.innerHTML = steps.items.map((item, i) => {
    const command = item.command === null ? null : steps.commands[item.command];
    const head = command === shown ? '' : headOf(command);
    shown = command;
    const lines = item.lines.length > 0 ? `<pre>${item.lines.map(lineOf).join('\n')}</pre>` : '';
    const note = item.note === '' ? '' : `<i>${escaped(item.note)}</i>`;
    return `<a href="#${i + 1}" data-step="${i}">${head}${lines}${note}</a>`;
  }).join('');
}

function sourceText(source, touched) {
  const served = source.served === null ? 'not served' : `v${source.served}`;
  const waiting = source.waiting === null ? '' : ` <em>v${source.waiting} waits</em>`;
  const refused = source.refused === null ? '' : ` <em class="refused">v${source.refused} refused</em>`;
  const kind = touched ? 'touched' : '';
  return `<span class="${kind}"><code>${escaped(source.name)}</code> ${served}${waiting}${refused}</span>`;
}

function clientText(client, item) {
  const active = item.client === client.id;
  const roots = client.roots.join(', ');
  const state = escaped(client.state);
  const page = draw(client, steps.layouts[client.id], active ? item.marks : {}, { scale: steps.scale });
  return `<section class="${active ? 'active' : ''}"><h2>Client ${client.id}`
    + `<small>format ${client.format}, roots ${escaped(roots)}</small>`
    + `<em class="${state.split(' ').pop()}">${state}</em></h2><div class="canvas">${page}</div></section>`;
}

const TEXTS_OPEN = 6;

function textShown(name, about, text, open) {
  const shown = text === '' ? '<span class="empty">(the empty text)</span>' : escaped(text);
  return `<details${open ? ' open' : ''}><summary><code>${escaped(name)}</code><small>${about}</small></summary>`
    + `<pre>${shown}</pre></details>`;
}

/** The text of an edit, and the texts that the client has which took a turn last. */
function textsOf(item) {
  const command = item.command === null ? null : steps.commands[item.command];
  const edited = command === null || command.text === null ? ''
    : `<section class="text edited">${textShown(command.rest[0], 'the text of this edit', command.text, true)}</section>`;
  const clients = item.clients.map((at) => steps.states[at]);
  const last = steps.items.slice(0, chosen + 1).findLast((each) => clients.some((client) => client.id === each.client));
  const client = clients.find((each) => each.id === last?.client);
  if (client === undefined || client.modules.length === 0) return edited;
  const texts = client.modules.map((module) => textShown(module.name, `v${module.version} on client ${client.id}`,
    steps.texts[`${module.name} ${module.version}`] ?? '', client.modules.length <= TEXTS_OPEN));
  return `${edited}<section class="text">${texts.join('')}</section>`;
}

function choose(step, scroll = true) {
  chosen = Math.max(0, Math.min(steps.items.length - 1, step));
  const item = steps.items[chosen];
  if (item === undefined) return;
  const touched = new Set([item.marks.edited, ...(item.marks.settled ?? [])]);
  const sources = steps.states[item.server];
  place('sources').innerHTML = '<b>Server</b>' + (sources.length === 0 ? '<span class="empty">no sources</span>'
    : sources.map((source) => sourceText(source, touched.has(source.name))).join(''));
  place('clients').innerHTML = item.clients.length === 0 ? '<p class="empty">No client is open.</p>'
    : item.clients.map((at) => clientText(steps.states[at], item)).join('');
  place('texts').innerHTML = textsOf(item);
  place('count').textContent = `step ${chosen + 1} of ${steps.items.length}`;
  place('previous').disabled = chosen === 0;
  place('next').disabled = chosen === steps.items.length - 1;
  list.querySelectorAll('a.chosen').forEach((entry) => entry.classList.remove('chosen'));
  const entry = list.querySelector(`a[data-step="${chosen}"]`);
  entry.classList.add('chosen');
  if (scroll) entry.scrollIntoView({ block: 'nearest' });
  history.replaceState(null, '', `#${chosen + 1}`);
}

const KEYS = { ArrowRight: 1, ArrowDown: 1, ArrowLeft: -1, ArrowUp: -1, Home: -Infinity, End: Infinity };

document.addEventListener('keydown', (event) => {
  if (KEYS[event.key] === undefined || event.ctrlKey || event.metaKey || event.altKey) return;
  event.preventDefault();
  choose(chosen + KEYS[event.key]);
});
list.addEventListener('click', (event) => {
  const entry = event.target.closest('a');
  if (entry === null) return;
  event.preventDefault();
  choose(Number(entry.dataset.step), false);
});
place('previous').addEventListener('click', () => choose(chosen - 1));
place('next').addEventListener('click', () => choose(chosen + 1));
window.addEventListener('hashchange', () => choose(Number(location.hash.slice(1)) - 1 || 0));
fillList();
choose(Number(location.hash.slice(1)) - 1 || 0);
