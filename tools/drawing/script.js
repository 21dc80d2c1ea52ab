// A script as a list of its commands, each with the text below it and the comments above it.
//
// The program reads scripts strictly; here every line is taken as it comes, so that a script with a fault
// can be drawn too.
'use strict';

/** The commands of a script, its roots, and the comment at its head. */
function readScript(source) {
  const roots = [];
  const commands = [];
  const head = [];
  let comments = [];
  let editing = null;
  source.split('\n').forEach((line, index) => {
    if (line.startsWith('|')) {
      if (editing !== null) editing.text += line.slice(1) + '\n';
      return;
    }
    editing = null;
    if (line.startsWith('#')) {
      (commands.length + roots.length === 0 ? head : comments).push(line.slice(1).trim());
      return;
    }
    if (line === '') return;
    const [word, ...rest] = line.split(' ');
    if (word === 'root') {
      roots.push(rest[0] ?? '');
      return;
    }
    const command = { line: index + 1, said: line, word, rest, text: null, note: comments.join(' ') };
    comments = [];
    if (word === 'edit') {
      command.text = '';
      editing = command;
    }
    commands.push(command);
  });
  return { roots, commands, head: head.join(' ') };
}

module.exports = { readScript };
