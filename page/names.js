// Names of modules, and the URLs of their instances. A name stands for a file of the folder: what its path
// has beside letters, digits, `_`, `.`, `-` and slashes is escaped as `.-` and two hexadecimal digits, and
// so is a dot before a hyphen. The first instance of a module on a page has the plain URL, its path. A later
// one has the plan that made it in its query: /counter.js?hmr=5.2 was made by plan 2 of page 5.

const origin = globalThis.location?.origin ?? 'http://localhost';

const hex = (byte) => byte.charCodeAt(0).toString(16).toUpperCase().padStart(2, '0');
const unhex = (_, digits) => String.fromCharCode(parseInt(digits, 16));

/** Whether an absolute URL is of the server that sent this page. */
export function isOfServer(url) {
  return String(url).startsWith(`${origin}/`);
}

/** The module that a URL of the server is an instance of; a folder is its index.html. */
export function nameOf(url) {
  const { pathname } = new URL(url, `${origin}/`);
  const bytes = pathname.replace(/%([\dA-F]{2})/gi, unhex);
  const path = bytes.endsWith('/') ? `${bytes}index.html` : bytes;
  return path.replace(/\.(?=-)|[^\w.\/-]/g, (byte) => `.-${hex(byte)}`);
}

/** The plain URL of a module: the path of its file, with the escapes that browsers write. */
export function plainUrl(name) {
  const bytes = name.replace(/\.-([\dA-F]{2})/gi, unhex);
  return bytes.replace(/[\0-\x20\x7F-\xFF"#%<>?\\^`{}]/g, (byte) => `%${hex(byte)}`);
}

/** The path of a module's file, as people are shown it. */
export function shown(name) {
  const url = plainUrl(name);
  try {
    return decodeURIComponent(url);
  } catch {
    return url;                           // the path isn't UTF-8
  }
}

/** The URL of the instance that a plan made, '' for the page's first instances. */
export function urlOf(plan, name) {
  return plan === '' ? plainUrl(name) : `${plainUrl(name)}?hmr=${plan}`;
}

/** The plan of the instance at a URL of the server, '' for a first instance; undefined of a URL with
 *  another query. */
export function planOf(url) {
  const found = /^[^?#]*(?:\?hmr=(\d+\.\d+))?$/.exec(url);
  return found === null ? undefined : found[1] ?? '';
}

/** Whether a module is JavaScript, by its name. */
export function isScript(name) {
  return /\.m?js$/.test(name);
}

/** The module that a specifier means in the module `importer`. */
export function resolve(importer, specifier) {
  return nameOf(new URL(specifier, absolute(plainUrl(importer))));
}

/** A URL as the browser has it in errors and in import.meta.url. */
export function absolute(url) {
  return new URL(url, `${origin}/`).href;
}
