// The lines of an output, taken one after another.
'use strict';

const SERVER_WORDS = new Set(['edit', 'remove', 'settle', 'open', 'close', 'unknown', 'client', 'values', 'value',
  'fates', 'instance', 'fresh', 'missing', 'unlinked', 'stale', 'dispose', 'prune', 'own', 'dep']);

class Lines {
  constructor(output) {
    this.lines = output.split('\n');
    if (this.lines.at(-1) === '') this.lines.pop();
    this.at = 0;
  }

  /** The next line; undefined at the end. */
  peek() {
    return this.lines[this.at];
  }

  take() {
    this.at += 1;
    return this.lines[this.at - 1];
  }

  /** The next line, taken, where the test holds of it. */
  takeWhere(test) {
    const line = this.peek();
    return line !== undefined && test(line) ? this.take() : undefined;
  }

  /** All lines from here on up to the first of which the test doesn't hold. */
  takeAll(test = () => true) {
    const taken = [];
    while (this.peek() !== undefined && test(this.peek())) taken.push(this.take());
    return taken;
  }

  /** Lines of no known form. */
  takeUnknown() {
    return this.takeAll((line) => {
      const word = line.split(' ')[0];
      return !SERVER_WORDS.has(word) && !/^[0-9]+$/.test(word) && !word.startsWith('/');
    });
  }
}

module.exports = { Lines };
