// A script and its output, side by side: which lines each command wrote, and what the pages are after them.
//
// The output has no marks between commands, so each command takes the lines that it can have written.
// A line of a form that isn't known stays with the command at which it comes, and is shown as it is.
'use strict';

const { Server } = require('./server.js');
const { Client } = require('./client.js');
const { Lines } = require('./lines.js');
const { REPORTS, compareShow, compareFates, compareFresh, valuesIn } = require('./reports.js');

const CLIENTS = 32;
const ROOTS = 16;
const FETCHED_NAMED = 8;
const PLAN_OF = { loaded: 'load', reloaded: 'reload', updated: 'update' };
const HEAR_WORDS = new Set(['quiet', 'busy', 'event']);
const BODY_WORDS = new Set(['log', 'fault', 'unrun', 'nohost']);

class Player {
  constructor(script, output) {
    this.script = script;
    this.lines = new Lines(output);
    this.quiet = false;
    this.server = new Server();
    this.clients = new Map();
    this.opened = 0;
    this.items = [];
    this.differences = [];
    this.states = [];
    this.placeOfState = new Map();
  }

  // Items

  keptState(value) {
    const text = JSON.stringify(value);
    if (!this.placeOfState.has(text)) {
      this.placeOfState.set(text, this.states.length);
      this.states.push(value);
    }
    return this.placeOfState.get(text);
  }

  addItem(command, lines, { note = '', client = null, marks = {} } = {}) {
    this.items.push({
      command,
      lines,
      note,
      client,
      marks,
      server: this.keptState(this.server.snapshot()),
      clients: [...this.clients.values()].map((each) => this.keptState(each.snapshot(this.server))),
    });
  }

  // Commands

  play() {
    if (/^(script fault|usage:)/.test(this.lines.peek() ?? '')) {
      this.addItem(null, this.lines.takeAll(), { note: 'Nothing was run.' });
      return this;
    }
    for (const [index, command] of this.script.commands.entries()) {
      const before = this.lines.takeUnknown();
      if (before.some((line) => line.startsWith('limit '))) {
        this.addItem(index, before, { note: 'A limit was passed here, and the run ended.' });
        break;
      }
      const count = this.items.length;
      this.run(command, index);
      if (this.items.length === count) this.addItem(index, []);
      this.items[count].lines.unshift(...before);
    }
    const left = this.lines.takeAll();
    if (left.length > 0) this.addItem(null, left, { note: 'Lines that belong to no command of the script.' });
    return this;
  }

  run(command, index) {
    const [first] = command.rest;
    switch (command.word) {
      case 'quiet':
        this.quiet = true;
        return;
      case 'edit':
        this.edit(command, index, first ?? '');
        return;
      case 'remove':
        this.remove(index, first ?? '');
        return;
      case 'settle':
        this.settle(command, index);
        return;
      case 'open':
      case 'open2':
        this.open(command, index);
        return;
      case 'close':
        this.close(index, Number(first));
        return;
      case 'turn':
        this.turns(index, Number(first), 1);
        return;
      case 'turns':
        this.turns(index, Number(first), Number(command.rest[1]));
        return;
      case 'emit':
        this.emit(index, first ?? '');
        return;
      case 'hear':
        this.hear(index, Number(first));
        return;
      case 'show':
      case 'values':
      case 'fates':
      case 'fresh':
        this.report(command, index);
        return;
      default:
        this.addItem(index, this.lines.takeAll((line) => /^[0-9]+ /.test(line)));
    }
  }

  /** The line `HEAD WORD..`, where it comes now and wasn't left out; its words behind the head. */
  answerLine(head, worked, isLeftOut) {
    const line = this.lines.peek();
    const said = line?.startsWith(head + ' ') ? line.slice(head.length + 1) : undefined;
    if (said === undefined || (this.quiet && isLeftOut)) return { lines: [], answer: worked };
    return { lines: [this.lines.take()], answer: said };
  }

  edit(command, index, name) {
    const worked = this.server.editAnswer(name, command.text);
    const { lines, answer } = this.answerLine(`edit ${name}`, worked, worked.startsWith('job'));
    const job = /^job (\d+)$/.exec(answer);
    if (job) this.server.edit(name, command.text, Number(job[1]));
    this.addItem(index, lines, { marks: { edited: name } });
  }

  remove(index, name) {
    this.forgetShown();
    const worked = this.server.current.has(name) ? String(this.server.counted + 1) : 'same';
    const { lines, answer } = this.answerLine(`remove ${name}`, worked, worked !== 'same');
    if (/^\d+$/.test(answer)) this.server.remove(name, Number(answer));
    this.addItem(index, lines, { marks: { edited: name } });
  }

  /** What `show` said of the clients is over once something is served or removed. */
  forgetShown() {
    this.clients.forEach((client) => {
      if (client.state === 'up' || client.state === 'behind') client.state = 'loaded';
    });
  }

  settle(command, index) {
    const [name, version] = command.rest;
    const named = name === undefined ? [...this.server.jobs].sort((a, b) => a.version - b.version)
      : [this.server.jobOf(name, Number(version)) ?? { name, version: Number(version), none: true }];
    const lines = [];
    const settled = [];
    this.forgetShown();
    named.forEach((job) => {
      const worked = job.none ? 'none' : this.server.isCurrent(job) ? 'served' : 'late';
      const head = `settle ${job.name} ${job.version}`;
      const isBad = this.lines.peek()?.startsWith(`${head} refused `);
      const found = this.answerLine(head, worked, worked === 'served' && !isBad);
      lines.push(...found.lines);
      if (job.none) return;
      this.server.settle(job, found.answer);
      if (found.answer.startsWith('served')) settled.push(job.name);
      if (found.answer.startsWith('refused')) this.clients.forEach((client) => client.notices.add(job.name));
    });
    this.addItem(index, lines, { marks: { settled } });
  }

  open(command, index) {
    const named = command.rest;
    const worked = named.length > ROOTS || new Set(named).size < named.length ? 'bad-roots'
      : this.clients.size >= CLIENTS ? 'refused' : String(this.opened + 1);
    const { lines, answer } = this.answerLine('open', worked, /^\d+$/.test(worked));
    if (/^\d+$/.test(answer)) {
      this.opened = Number(answer);
      const roots = named.length > 0 ? named : this.script.roots;
      const client = new Client(this.opened, command.word === 'open2' ? 2 : 1, roots);
      client.begin('load', [], this.server.servings);
      this.clients.set(this.opened, client);
    }
    this.addItem(index, lines, { client: /^\d+$/.test(answer) ? this.opened : null });
  }

  close(index, id) {
    const line = this.lines.takeWhere((each) => each === `close ${id}` || each === `unknown ${id}`);
    if (line === undefined || line.startsWith('close')) this.clients.delete(id);
    this.addItem(index, line === undefined ? [] : [line]);
  }

  // Events

  /** An event waits for each open client, but for those of which a line says that as many wait as may. */
  emit(index, event) {
    const lines = this.lines.takeAll((line) => /^[0-9]+ full /.test(line) && line.endsWith(` full ${event}`));
    const waits = this.clients.size - lines.length;
    const note = `${event} waits for ${waits === 1 ? 'one client' : `${waits} clients`}`;
    this.addItem(index, lines, { note, marks: { emitted: event } });
  }

  /** A client hears the event that has waited longest for it: its line, and those of its listeners. */
  hear(index, id) {
    const own = (words) => (line) => {
      const [client, word] = line.split(' ');
      return client === String(id) && words.has(word);
    };
    const answer = this.lines.takeWhere((line) => line === `unknown ${id}` || own(HEAR_WORDS)(line));
    const lines = answer === undefined ? [] : [answer];
    const heard = /^[0-9]+ event (.*)$/.exec(answer ?? '');
    if (heard !== null) lines.push(...this.lines.takeAll(own(BODY_WORDS)));
    this.addItem(index, lines, { client: id, marks: heard === null ? {} : { heard: heard[1] } });
  }

  // Turns

  turns(index, id, most) {
    const client = this.clients.get(id);
    if (client === undefined) {
      const line = this.lines.takeWhere((each) => each === `unknown ${id}`);
      this.addItem(index, line === undefined ? [] : [line]);
      return;
    }
    const count = this.items.length;
    let fetched = [];
    for (let turn = 0; turn < most; turn += 1) {
      const did = this.turn(client);
      if (did.fetched) fetched.push(did.fetched);
      if (did.lines.length > 0) {
        this.addItem(index, did.lines, { note: fetchNote(fetched), client: id, marks: did.marks });
        fetched = [];
      }
      if (did.idle) break;
    }
    if (fetched.length > 0) this.addItem(index, [], { note: fetchNote(fetched), client: id });
    if (this.items.length === count) this.addItem(index, [], { note: 'nothing to do', client: id });
  }

  /** One request of a client: what it fetched, or the lines that its answer wrote. */
  turn(client) {
    const word = this.wordOf(client);
    if (client.plan !== null) {
      const needed = client.plan.cause === null ? client.nextNeeded() : null;
      if (needed !== null) return this.fetch(client, needed, word);
      return word === undefined ? { lines: [], idle: true } : this.group(client);
    }
    if (word !== undefined && this.isDue(client, word)) return this.group(client);
    if (!client.loaded && !client.isHeld(this.server)) {
      client.begin('load', [], this.server.servings);
      return { lines: [] };
    }
    return { lines: [], idle: true };
  }

  /** The word of the next line, where it is of a turn of this client. */
  wordOf(client) {
    const [first, word] = (this.lines.peek() ?? '').split(' ');
    return first === String(client.id) && !HEAR_WORDS.has(word) && word !== 'full' ? word : undefined;
  }

  fetch(client, name, word) {
    if (word === 'wait' && this.lines.peek() === `${client.id} wait ${name}`) return { lines: [this.lines.take()] };
    const served = this.server.served.get(name);
    if (served === undefined) {
      client.plan.cause = name;
      return { lines: [], fetched: `${name} (not there)` };
    }
    client.plan.staged.set(name, served);
    return { lines: [], fetched: `${name} ${served.version}` };
  }

  /** Whether a line with this word can be written now by a client without a plan. */
  isDue(client, word) {
    switch (word) {
      case 'update':
      case 'reload':
      case 'batch':
        return client.forced.size > 0 || (!client.isHeld(this.server) && client.changed(this.server).length > 0);
      case 'pruned':
        return true;
      case 'error':
        return client.notices.has(this.lines.peek().split(' ')[2]);
      case 'log':
      case 'fault':
        return client.dropped().length > 0;
      default:
        return true;
    }
  }

  /** The lines that one answer wrote, and what they did to the page. */
  group(client) {
    const lines = [];
    const marks = {};
    const own = (word) => (line) => line.startsWith(`${client.id} ${word}`);
    const takeOwn = () => {
      const line = this.lines.take();
      lines.push(line);
      return line.split(' ').slice(1);
    };
    let [word, ...rest] = takeOwn();
    if (word === 'batch') {
      marks.triggered = rest.slice(2);
      if (!own('update')(this.lines.peek() ?? '') && !own('reload')(this.lines.peek() ?? '')) return { lines, marks };
      [word, ...rest] = takeOwn();
    }
    switch (word) {
      case 'update':
        client.begin('update', rest, this.server.servings);
        lines.push(...this.lines.takeAll(own('accept ')));
        marks.replaced = rest;
        marks.boundaries = acceptedIn(lines);
        client.boundaries = marks.boundaries;
        return { lines, marks };
      case 'reload':
        client.begin('reload', [], this.server.servings);
        marks.cause = rest[0];
        marks.path = rest.slice(1);
        client.boundaries = [];
        return { lines, marks };
      case 'aborted':
        marks.aborted = rest;
        client.abort();
        return { lines, marks };
      case 'error':
        client.notices.delete(rest[0]);
        marks.error = rest[0];
        return { lines, marks };
      case 'invalidated':
        client.forced.add(rest[0]);
        client.heldAt = null;
        return { lines, marks };
      case 'ended':
        client.state = `ended: ${rest.join(' ')}`;
        return { lines, marks };
      default:
        return this.applied(client, lines, marks);
    }
  }

  /** The lines of bodies that ran, up to the end of their plan or prune, of which one is taken. */
  applied(client, lines, marks) {
    const waiting = client.plan === null ? new Set(client.dropped()) : new Set();
    for (;;) {
      const [, word, name] = lines.at(-1).split(' ');
      if (PLAN_OF[word] !== undefined) {
        marks.made = client.apply(PLAN_OF[word], this.server);
        marks.boundaries = client.boundaries ?? [];
        markFaults(client, lines);
        return { lines, marks };
      }
      if (word === 'pruned') {
        client.prune(name);
        waiting.delete(name);
        marks.pruned = [...(marks.pruned ?? []), name];
        if (waiting.size === 0) return { lines, marks };
      } else if (!BODY_WORDS.has(word)) {
        return { lines, marks };
      }
      if (this.wordOf(client) === undefined) return { lines, marks };
      lines.push(this.lines.take());
    }
  }

  // Reports

  report(command, index) {
    const [id] = command.rest;
    const unknown = this.lines.takeWhere((line) => line === `unknown ${id}`);
    if (unknown !== undefined) {
      this.addItem(index, [unknown]);
      return;
    }
    const form = REPORTS[command.word];
    const head = this.lines.takeWhere((line) => form.head.test(line));
    const rows = head === undefined ? [] : this.lines.takeAll((line) => form.row.test(line));
    const client = this.clients.get(Number(id));
    const marks = head !== undefined && command.word === 'values' ? { values: valuesIn(rows) } : {};
    const found = head === undefined ? [] : this.compared(command.word, client, head, rows);
    this.differences.push(...found.map((said) => `line ${command.line}: ${said}`));
    const lines = head === undefined ? [] : [head, ...rows];
    this.addItem(index, lines, { client: client?.id ?? null, marks });
  }

  /** The differences between a report and what was worked out. */
  compared(word, client, head, rows) {
    if (word === 'fresh') return compareFresh(client?.roots ?? this.script.roots, this.server, rows);
    if (client === undefined) return [];
    if (word === 'show') return compareShow(client, head, rows);
    return word === 'fates' ? compareFates(client, rows) : [];
  }
}

function fetchNote(fetched) {
  const named = fetched.slice(0, FETCHED_NAMED).join(', ');
  const more = fetched.length > FETCHED_NAMED ? ` and ${fetched.length - FETCHED_NAMED} more` : '';
  return fetched.length === 0 ? '' : `fetched ${named}${more}`;
}

const acceptedIn = (lines) => lines.map((line) => line.split(' ')).filter((words) => words[1] === 'accept')
  .map((words) => [words[2], words[3]]);

/** Instances whose evaluation faulted, or that weren't run. */
function markFaults(client, lines) {
  lines.map((line) => line.split(' ')).forEach(([, word, name, place]) => {
    const entry = client.view.get(name);
    if (entry === undefined) return;
    if (word === 'fault' && place === 'module') entry.fault = 'faulted';
    if (word === 'unrun') entry.fault = 'not run';
  });
}

/** Items (a command, or an answer within its turns), the states that they refer to by number, and the texts. */
function follow(script, output) {
  const { items, states, differences, server } = new Player(script, output).play();
  return { items, states, texts: server.texts, differences };
}

module.exports = { follow, Player };
