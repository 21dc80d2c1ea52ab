// A record (docs/RECORDS.md), drawn like a script: its entries one after another, and what the pages are behind each.
//
// What an event did is read off its reply, which is believed; `hmr audit` checks it. A `rest` line is compared with the
// page that the replies made.
'use strict';

const { Client } = require('./client.js');
const { analyse } = require('./modules.js');
const { Player } = require('./steps.js');
const { difference } = require('./reports.js');

const LONGEST = 160;

/** Whether a text is a record: in a script no line begins so. */
const isRecord = (source) => /^root [^]*^= /m.test(source);

const shortened = (line) => (line.length <= LONGEST ? line : `${line.slice(0, LONGEST)}…`);

/** The roots of a record, and its entries as commands that have their reply. */
function readRecord(source) {
  const roots = [];
  const commands = [];
  source.split('\n').forEach((line, index) => {
    const last = commands.at(-1);
    const [word, ...rest] = line.split(' ');
    if (line.startsWith('|') || line.startsWith('~')) {
      if (last !== undefined) last.text = (last.text ?? '') + line.slice(1) + (line.startsWith('|') ? '\n' : '');
    } else if (word === 'root') {
      roots.push(rest[0] ?? '');
    } else if (word === '=' || word === 'rest') {
      if (last === undefined) return;
      last.lines.push(shortened(line));
      if (word === '=') last.reply = line.slice(2);
      else last.claim = { line: index + 1, client: Number(rest[0]), words: rest.slice(1) };
    } else if (line !== '') {
      const text = word === 'edit' ? '' : null;
      commands.push({ line: index + 1, said: line, word, rest, text, note: '', lines: [], reply: '', claim: null });
    }
  });
  return { roots, commands, head: 'A record of what a server was told and what it answered.' };
}

/** The message that a reply is, or nothing. */
function messageOf(reply) {
  try {
    return reply.startsWith('{') ? JSON.parse(reply) : null;
  } catch {
    return null;
  }
}

class RecordPlayer extends Player {
  constructor(record) {
    super(record, '');
  }

  play() {
    for (const [index, command] of this.script.commands.entries()) {
      const did = this.take(command) ?? {};
      this.compareRest(command.claim);
      this.addItem(index, command.lines, did);
    }
    return this;
  }

  /** What an event did by its reply: the note, the client and the marks of its step. */
  take(command) {
    const [first, second] = command.rest;
    switch (command.word) {
      case 'edit':
        return this.recordEdit(first ?? '', command.text, command.reply);
      case 'remove':
        return this.recordRemove(first ?? '', command.reply);
      case 'settle':
        return this.recordSettle(first ?? '', Number(second), command.reply);
      case 'connect':
        return this.recordConnect(messageOf(command.reply));
      case 'disconnect':
        if (command.reply === 'gone') this.clients.delete(Number(first));
        return {};
      default:
        return this.recordRequest(command, this.clients.get(Number(first)), messageOf(command.reply));
    }
  }

  recordEdit(name, text, reply) {
    const job = /^job (\d+)$/.exec(reply);
    if (job !== null) this.server.edit(name, text, Number(job[1]));
    return { marks: { edited: name } };
  }

  recordRemove(name, reply) {
    const removed = /^removed (\d+)$/.exec(reply);
    if (removed !== null) {
      this.forgetShown();
      this.server.remove(name, Number(removed[1]));
    }
    return { marks: { edited: name } };
  }

  recordSettle(name, version, reply) {
    const job = this.server.jobOf(name, version);
    if (job === undefined || (reply === 'late' && this.server.isCurrent(job))) return {};
    this.forgetShown();
    this.server.settle(job, reply);
    if (reply.startsWith('refused')) this.clients.forEach((client) => client.notices.add(name));
    return { marks: { settled: reply === 'served' ? [name] : [] } };
  }

  recordConnect(message) {
    if (message?.type !== 'connected') return {};
    const client = new Client(message.client, 2, message.roots);
    client.begin('load', [], this.server.servings);
    this.clients.set(client.id, client);
    return { client: client.id };
  }

  recordRequest(command, client, message) {
    if (client === undefined || message === null || message.type === 'refused') {
      return { client: client?.id ?? null, note: message?.type === 'refused' ? 'refused' : '' };
    }
    const name = command.rest[1];
    switch (command.word) {
      case 'ask':
        return { client: client.id, marks: this.recordAsk(client, message) };
      case 'fetch':
        return { client: client.id, note: this.recordFetch(client, name, message) };
      case 'applied': {
        const made = client.plan === null ? [] : client.apply(client.plan.kind, this.server);
        return { client: client.id, marks: { made, boundaries: client.boundaries ?? [] } };
      }
      case 'aborted':
        client.abort();
        return { client: client.id, marks: { aborted: [] } };
      case 'invalidate':
        client.forced.add(name);
        client.heldAt = null;
        return { client: client.id };
      default:
        return { client: client.id };
    }
  }

  /** What an `ask` brought. */
  recordAsk(client, message) {
    switch (message.type) {
      case 'connected':
        client.begin('load', [], this.server.servings);
        return {};
      case 'error':
        client.notices.delete(message.path);
        return { error: message.path };
      case 'prune':
        message.paths.forEach((path) => client.prune(path));
        return { pruned: message.paths };
      case 'full-reload':
        client.begin('reload', [], this.server.servings);
        client.boundaries = [];
        return { cause: message.cause, path: message.path, triggered: message.triggeredBy };
      case 'update':
        client.begin('update', message.replaced, this.server.servings);
        client.boundaries = message.updates.map((each) => [each.path, each.acceptedPath]);
        return { replaced: message.replaced, boundaries: client.boundaries, triggered: message.triggeredBy };
      default:
        return {};
    }
  }

  recordFetch(client, name, message) {
    if (client.plan === null) return '';
    if (message.type !== 'text') return message.type === 'not-yet' ? `${name} has no result yet` : `${name} (not there)`;
    client.plan.staged.set(name, { version: message.version, ...analyse(name, message.text) });
    return `fetched ${name} ${message.version}`;
  }

  /** A claim that a client is at rest, beside the page that was made of the replies. */
  compareRest(claim) {
    const client = claim === null ? undefined : this.clients.get(claim.client);
    if (client === undefined) return;
    const said = claim.words.flatMap((word, at) => (at % 2 === 0 ? [`${word} ${claim.words[at + 1]}`] : []));
    const page = [...client.view].map(([name, entry]) => `${name} ${entry.version}`);
    this.differences.push(...difference('rest', said, page).map((each) => `line ${claim.line}: ${each}`));
    client.state = 'up';
  }
}

/** The items of a record, as `follow` answers those of a script. */
function followRecord(record) {
  const { items, states, differences, server } = new RecordPlayer(record).play();
  return { items, states, texts: server.texts, differences };
}

module.exports = { isRecord, readRecord, followRecord };
