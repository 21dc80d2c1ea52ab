// What a drawing needs of a module's text: its imports, what it accepts, and whether it declines.
//
// The text is cut into tokens, so that nothing is read out of a comment or a string literal. Texts that
// are no module are never served, so nothing here reports a fault.
'use strict';

const TOKEN = /\s+|\/\/[^\n]*|\/\*[^]*?\*\/|"(?:[^"\\\n]|\\.)*"|'(?:[^'\\\n]|\\.)*'|[A-Za-z_$][A-Za-z0-9_$]*|[^]/g;
const ESCAPES = { n: '\n', t: '\t', r: '\r' };

/** The tokens of a text, without spaces and comments. */
function tokens(text) {
  return (text.match(TOKEN) ?? []).filter((token) => !/^(\s|\/\/|\/\*)/.test(token));
}

const isString = (token) => token !== undefined && /^["'][^]*["']$/.test(token) && token.length > 1;

const valueOf = (token) => token.slice(1, -1).replace(/\\(.)/g, (_, c) => ESCAPES[c] ?? c);

/** The module that a specifier means in the module `base`; null where it means none. */
function resolve(base, specifier) {
  const relative = specifier.startsWith('./') || specifier.startsWith('../');
  if (!relative && !specifier.startsWith('/')) return null;
  const segments = relative ? base.split('/').slice(1, -1) : [];
  for (const part of (relative ? specifier : specifier.slice(1)).split('/')) {
    if (part === '.') continue;
    if (part === '..') {
      if (segments.pop() === undefined) return null;
    } else if (/^[A-Za-z0-9_.-]+$/.test(part)) {
      segments.push(part);
    } else {
      return null;
    }
  }
  const name = '/' + segments.join('/');
  return segments.length === 0 || name.length > 255 ? null : name;
}

/** The string literals of a list, from the token behind its bracket on. */
function listed(all, at) {
  const found = [];
  for (let i = at; i < all.length && all[i] !== ']'; i += 1) {
    if (isString(all[i])) found.push(valueOf(all[i]));
  }
  return found;
}

/** What the text of the module `name` imports and accepts. */
function analyse(name, text) {
  const all = tokens(text);
  const imports = new Set();
  const accepts = new Set();
  let acceptsItself = false;
  let declines = false;
  const add = (set, specifier) => {
    const module = resolve(name, specifier);
    if (module !== null) set.add(module);
  };
  all.forEach((token, i) => {
    if (token !== 'import' || all[i - 1] === '.') return;
    if (all[i + 1] !== '.') {
      const from = all.slice(i + 1).find(isString);
      if (from !== undefined) add(imports, valueOf(from));
      return;
    }
    if (all.slice(i, i + 6).join('') !== 'import.meta.hot.') return;
    const argument = all[i + 8];
    if (all[i + 6] === 'decline') declines = true;
    if (all[i + 6] !== 'accept') return;
    if (isString(argument)) add(accepts, valueOf(argument));
    else if (argument === '[') listed(all, i + 9).forEach((specifier) => add(accepts, specifier));
    else acceptsItself = true;
  });
  return { imports: [...imports], accepts: [...accepts], acceptsItself, declines };
}

module.exports = { analyse, resolve, tokens };
