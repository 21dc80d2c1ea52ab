// Where an error was thrown, read off its stack.

import { isOfServer, nameOf } from './names.js';

/** The message of an error and, where its stack begins in a file of the server, the URL, name, line and
 *  column. */
export function placeOf(error) {
  const [, url, line, column] = /(https?:\/\/[^\s()]+?):(\d+):(\d+)/.exec(error?.stack ?? '') ?? [];
  const message = String(error);
  if (url === undefined || !isOfServer(url)) return { message };
  return { message, url, name: nameOf(url), line: Number(line), column: Number(column) };
}
