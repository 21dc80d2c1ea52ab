// The page's client without a browser, for tests/page_plans: page_stand_in.mjs FOLDER, where FOLDER has the
// client's files.
//
// A line of JSON comes in, and lines go out: requests, whose answers come in, and last what the page is once
// nothing is to do. The stand-in for the browser evaluates as browsers do, depth first by imports, each URL
// once. The first line of a module's text says what it does when it runs, and what the server's report of it
// is.
import { createInterface } from 'node:readline';

const [folder] = process.argv.slice(2);
globalThis.document = { URL: 'http://localhost/' };
const { carryOut } = await import(`${folder}/carrying_out.js`);
const { enter } = await import(`${folder}/hot.js`);
const { readModule } = await import(`${folder}/modules.js`);
const { absolute } = await import(`${folder}/names.js`);
const { Page } = await import(`${folder}/page.js`);
const { pendingRequest, take } = await import(`${folder}/turns.js`);

const input = createInterface({ input: process.stdin })[Symbol.asyncIterator]();
const hear = async () => JSON.parse((await input.next()).value);
const say = (value) => process.stdout.write(`${JSON.stringify(value)}\n`);

let lines = [];
const tell = (...words) => lines.push(words.filter((word) => word !== '').join(' '));

class StandIn {
  constructor() {
    this.known = new Map();               // what texts say, by name and version
    this.ran = new Set();                 // the URLs that were evaluated
  }

  show() {}
  wake() {}
  restyle() {}
  tellPlan() {}
  link() { return null; }
  report(error) { tell('reported', String(error)); }

  hears(name, version, text) {
    this.known.set(`${name} ${version}`, JSON.parse(text.slice(3, text.indexOf('\n'))));
  }

  reportsOf(made) {
    return Object.fromEntries(Object.entries(made)
      .map(([name, version]) => [name, this.known.get(`${name} ${version}`).report]));
  }

  async importModule(url) {
    this.evaluate(this.page.instanceOf(absolute(url)));
    return { of: url };
  }

  // The modules that an instance imports, then itself.
  evaluate(instance) {
    if (this.ran.has(instance.url)) return;
    this.ran.add(instance.url);
    for (const { to } of instance.module.imports) this.evaluate(instance.links.get(to));
    this.run(instance.url, instance.module);
  }

  run(url, { name, version }) {
    const meta = { url: absolute(url) };
    if (name !== this.page.root) enter(this.page, meta);
    const { hot } = meta;
    const deeds = {
      log: (text) => tell('log', name, text),
      count: () => {
        hot.data.n = (hot.data.n ?? 0) + 1;
        tell('log', name, String(hot.data.n));
      },
      invalidate: (message) => hot.invalidate(message),
    };
    const handler = (todo) => () => todo.forEach(([what, word]) => deeds[what](word));
    const acts = {
      accept: () => hot.accept(),
      own: (todo) => hot.accept(handler(todo)),
      dependency: (to, todo) => hot.accept(to, handler(todo)),
      dispose: (todo) => hot.dispose(handler(todo)),
      prune: (todo) => hot.prune(handler(todo)),
      decline: () => hot.decline(),
      ...deeds,
    };
    this.known.get(`${name} ${version}`).acts.forEach(([what, ...words]) => acts[what](...words));
  }

  // What a browser does with a page: it loads and runs the modules that were served when the page was sent.
  load(served) {
    const modules = new Map();
    Object.entries(served).forEach(([name, [version, text]]) => {
      this.hears(name, version, text);
      modules.set(name, readModule(name, version, text));
    });
    const visit = (name) => {
      if (this.ran.has(name)) return;
      this.ran.add(name);
      const module = modules.get(name);
      module.targets.forEach(visit);
      this.run(name, module);
    };
    visit(this.page.root);
  }
}

function opened({ id, count, served }) {
  const browser = new StandIn();
  const page = new Page({ id: String(id), root: '/index.html', run: '1', count }, browser);
  browser.page = page;
  browser.load(served);
  return page;
}

// The words of a load: where a reload led to it, they are others.
let loadWord = 'loaded';

function tellBefore(page, request, answer) {
  if (answer.type === 'text') page.browser.hears(answer.path, answer.version, answer.text);
  if (answer.type === 'update') {
    tell('update', ...answer.replaced);
    answer.updates.forEach(({ path, acceptedPath }) => tell('accept', path, acceptedPath));
  }
  if (answer.type === 'full-reload') {
    tell('reload', answer.cause, ...answer.path);
    loadWord = 'reloaded';
  }
  if (request.type === 'aborted') {
    tell('aborted', request.cause, request.path);
    loadWord = 'loaded';
  }
  if (request.type === 'invalidate') {
    if (answer.type === 'done') tell('invalidated', request.path, request.message);
    else tell('ignored', request.path);
  }
  if (answer.type === 'prune') {
    // the line stands behind those of the module's handlers
    for (const instance of answer.paths.map((name) => page.live.get(name))) {
      const end = instance.end.bind(instance);
      instance.end = () => {
        tell('pruned', instance.name);
        end();
      };
    }
  }
}

function tellAfter(request, plan) {
  if (request.type !== 'applied') return;
  tell(plan.kind === 'update' ? 'updated' : loadWord);
  loadWord = 'loaded';
}

let page = null;
for (let told = await hear(); told !== null; told = await hear()) {
  if (told.open) page = opened(told.open);
  for (let isIdle = false; !isIdle && !page.isLeaving;) {
    const request = await pendingRequest(page);
    say({ request });
    const { plan } = page;
    if (request.type === 'applied') await carryOut(page);
    const answer = await hear();
    tellBefore(page, request, answer);
    await take(page, request, answer);
    tellAfter(request, plan);
    isIdle = request.type === 'ask' && answer.type === 'idle';
  }
  const table = [...page.live].map(([name, { module }]) => `${name} ${module.version}`).sort();
  const stale = [...new Set(page.stale.map(({ name, to }) => `stale ${name} ${to}`))].sort();
  say({ lines, table, stale, leaves: page.isLeaving });
  lines = [];
}
