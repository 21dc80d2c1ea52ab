// The program of `./hmr dev` over a folder, with its terminal.
'use strict';

const { spawn } = require('node:child_process');
const { pause } = require('./pause.js');

const ROUND = 25;                         // milliseconds
const MOST = 60000;

class Program {
  /** Begins it, and waits until it serves. */
  static async begin(command, folder, port = 0) {
    const program = new Program(command, folder, port);
    program.address = (await program.told('ready')).address;
    program.port = Number(new URL(program.address).port);
    return program;
  }

  constructor(command, folder, port) {
    this.running = spawn(command, [folder, '--port', `${port}`, '--json'], { stdio: ['pipe', 'pipe', 'inherit'] });
    this.lines = [];                      // objects
    this.read = 0;                        // how many of them were waited for
    let rest = '';
    this.running.stdout.setEncoding('utf8').on('data', (data) => {
      const parts = (rest + data).split('\n');
      rest = parts.pop();
      this.lines.push(...parts.map((part) => JSON.parse(part)));
    });
    this.ended = new Promise((done) => { this.running.on('close', done); });
  }

  /** The next line of this event that fits, after those that were waited for before. */
  async told(event, fits = () => true) {
    for (const end = Date.now() + MOST; Date.now() < end; await pause(ROUND)) {
      const at = this.lines.findIndex((line, place) => place >= this.read && line.event === event && fits(line));
      if (at >= 0) {
        this.read = at + 1;
        return this.lines[at];
      }
    }
    throw new Error(`the program didn't tell ${event}: ${JSON.stringify(this.lines.slice(this.read))}`);
  }

  /** Passes over the lines that came so far. */
  passOver() {
    this.read = this.lines.length;
  }

  says(word) {
    this.running.stdin.write(`${word}\n`);
  }

  async kill() {
    this.running.kill('SIGKILL');
    await this.ended;
  }
}

module.exports = { Program };
