// The server's sources while a script is played: current texts, jobs, what is served.
//
// An output that is written after `quiet` leaves out what went well, so each answer is worked out here
// by the rules of docs/PROTOCOL.md, and a line of the output is believed before it.
'use strict';

const { analyse } = require('./modules.js');

const TEXT_BYTES = 131072;
const SOURCE_NAMES = 8192;
const SOURCE_BYTES = 33554432;

class Server {
  constructor() {
    this.counted = 0;
    this.servings = 0; // how often something was served or removed
    this.current = new Map();
    this.served = new Map();
    this.jobs = [];
    this.texts = {}; // by name and version
  }

  /** What an edit is answered: `same`, `refused ..` or `job V`. */
  editAnswer(name, text) {
    const bytes = Buffer.byteLength(text);
    const old = this.current.get(name);
    let total = bytes;
    for (const [other, source] of this.current) if (other !== name) total += source.bytes;
    if (bytes > TEXT_BYTES) return 'refused text-too-long';
    if (old !== undefined && old.text === text) return 'same';
    if (old === undefined && this.current.size >= SOURCE_NAMES) return 'refused too-many-names';
    if (total > SOURCE_BYTES) return 'refused source-total';
    return `job ${this.counted + 1}`;
  }

  edit(name, text, version) {
    this.counted = version;
    this.current.set(name, { version, text, bytes: Buffer.byteLength(text), state: 'waiting' });
    this.jobs.push({ name, version, text });
    this.texts[`${name} ${version}`] = text;
  }

  remove(name, version) {
    this.counted = version;
    this.servings += 1;
    this.current.delete(name);
    this.served.delete(name);
  }

  jobOf(name, version) {
    return this.jobs.find((job) => job.name === name && job.version === version);
  }

  /** The result of a job: `served`, `refused ..` or `late`. */
  settle(job, word) {
    this.jobs = this.jobs.filter((other) => other !== job);
    const source = this.current.get(job.name);
    if (source === undefined || source.version !== job.version) return;
    if (word.startsWith('served')) {
      source.state = 'served';
      this.servings += 1;
      this.served.set(job.name, { version: job.version, ...analyse(job.name, job.text) });
    } else if (word.startsWith('refused')) {
      source.state = 'refused';
    }
  }

  isCurrent(job) {
    return this.current.get(job.name)?.version === job.version;
  }

  /** Each name that has a source or is served, for the drawing. */
  snapshot() {
    const names = [...new Set([...this.current.keys(), ...this.served.keys()])].sort();
    return names.map((name) => ({
      name,
      served: this.served.get(name)?.version ?? null,
      waiting: this.jobs.filter((job) => job.name === name && this.isCurrent(job)).map((job) => job.version)[0] ?? null,
      refused: this.current.get(name)?.state === 'refused' ? this.current.get(name).version : null,
    }));
  }
}

module.exports = { Server };
