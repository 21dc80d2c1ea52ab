#!/usr/bin/env node
// A client of the package `ws` in one trial: client.js TRIAL PORT FOLDER
//
// Does what the lines of the file TRIAL say, with the server at PORT of this machine that serves FOLDER. Its
// status is 0 where the server answers as the lines say. tools/session_clients has what the lines mean.
'use strict';

const { readFileSync, renameSync, writeFileSync } = require('node:fs');
const { setTimeout: sleep } = require('node:timers/promises');
const WebSocket = require('ws');

// how long a server has for each answer, in milliseconds
const PATIENCE = 60_000;
const IDLE = '{"type":"idle"}';

const split = (rest) => [rest.slice(0, rest.indexOf(' ')), rest.slice(rest.indexOf(' ') + 1)];

class Client {
  constructor(port, folder) {
    this.address = `ws://127.0.0.1:${port}/`;
    this.folder = folder;
    this.answers = [];
    this.waiting = null;
    this.code = null;
  }

  // the next message, or null once the connection is closed
  receive() {
    if (this.answers.length > 0) return Promise.resolve(this.answers.shift());
    if (this.code !== null) return Promise.resolve(null);
    return new Promise((resolve) => { this.waiting = resolve; });
  }

  arrive(message) {
    const { waiting } = this;
    this.waiting = null;
    if (waiting) waiting(message);
    else if (message !== null) this.answers.push(message);
  }

  connect() {
    this.socket = new WebSocket(this.address);
    this.socket.on('message', (data) => this.arrive(data.toString()));
    this.socket.on('close', (code) => { this.code = code; this.arrive(null); });
    return new Promise((resolve, reject) => {
      this.socket.on('open', resolve);
      this.socket.on('error', reject);
    });
  }

  refused() {
    const socket = new WebSocket(this.address, { protocolVersion: 8 });
    return new Promise((resolve, reject) => {
      socket.on('error', resolve);
      socket.on('open', () => reject(new Error('the handshake was taken')));
    });
  }

  send(text) { this.socket.send(text); }

  bytes(text) { this.socket.send(Buffer.from(text)); }

  pieces(text, size) {
    for (let at = 0; at < text.length; at += size) {
      this.socket.send(text.slice(at, at + size), { fin: at + size >= text.length });
    }
  }

  parts(text) { this.pieces(text, 5); }

  wide(rest) {
    const [size, text] = split(rest);
    this.socket.send(text.padEnd(Number(size)));
  }

  wideparts(rest) {
    const [size, text] = split(rest);
    this.pieces(text.padEnd(Number(size)), 1 << 20);
  }

  part(text) { this.socket.send(text, { fin: false }); }

  rest(text) { this.socket.send(text); }

  unmasked(text) { this.socket.send(text, { mask: false }); }

  ping(text) {
    return new Promise((resolve, reject) => {
      this.socket.once('pong', (data) => {
        if (data.toString() === text) resolve();
        else reject(new Error(`the pong is ${data}`));
      });
      this.socket.ping(text);
    });
  }

  async poll(text) {
    for (;;) {
      this.socket.send(text);
      const answer = await this.receive();
      if (answer !== IDLE) {
        this.answers.unshift(answer);
        return;
      }
      await sleep(50);
    }
  }

  async answer(text) {
    const answer = await this.receive();
    if (answer !== text) throw new Error(`the answer is ${answer}`);
  }

  save(rest) {
    const [name, text] = split(rest);
    writeFileSync(`${this.folder}${name}.new`, JSON.parse(text));
    renameSync(`${this.folder}${name}.new`, this.folder + name);
  }

  async close() {
    this.socket.close(1000);
    await this.ends();
    if (this.code !== 1000) throw new Error(`closed by ${this.code}`);
  }

  // a masked text of 100 bytes, of which 5 come
  cut() {
    this.socket._socket.end(Buffer.concat([Buffer.from([0x81, 0x80 | 100, 0, 0, 0, 0]), Buffer.from('{"typ')]));
  }

  async ends() {
    const answer = await this.receive();
    if (answer !== null) throw new Error(`the answer is ${answer}`);
  }
}

async function play(trial, port, folder) {
  const client = new Client(port, folder);
  const lines = readFileSync(trial, 'utf8').split('\n');
  for (const [index, line] of lines.entries()) {
    const [verb, rest] = line.includes(' ') ? split(line) : [line, ''];
    if (['', '#', 'serve', 'status', 'report'].includes(verb)) continue;
    const late = new AbortController();
    try {
      await Promise.race([
        client[verb](rest),
        sleep(PATIENCE, null, { signal: late.signal }).then(() => { throw new Error('nothing came'); }),
      ]);
    } catch (error) {
      console.log(`line ${index + 1}, ${verb}: ${error.message}`);
      process.exit(1);
    }
    late.abort();
  }
  process.exit(0);
}

play(...process.argv.slice(2, 5));
