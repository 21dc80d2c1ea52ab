// The reports of an output, `show`, `values`, `fates` and `fresh`, and how they agree with what was worked out.
//
// Where a report says otherwise, it is right: the page is set to it, and the difference is answered.
'use strict';

const { Client } = require('./client.js');

/** The first line of each report, and the form of the others. */
const REPORTS = {
  show: { head: /^client \d+ /, row: /^(\/\S* \d+$|stale )/ },
  values: { head: /^values /, row: /^value / },
  fates: { head: /^fates /, row: /^(instance|dispose|prune|own|dep) / },
  fresh: { head: /^fresh/, row: /^(\/\S* \d+$|missing |unlinked )/ },
};

/** What a list in a report has otherwise than the one that was worked out: a list of none or one. */
function difference(report, said, worked) {
  if ([...said].sort().join('\n') === [...worked].sort().join('\n')) return [];
  return [`${report} has [${said.join(', ')}], and not [${worked.join(', ')}]`];
}

function compareShow(client, head, rows) {
  const modules = rows.filter((row) => row.startsWith('/'));
  const stale = rows.filter((row) => row.startsWith('stale ')).map((row) => row.slice('stale '.length));
  const found = difference('show', modules, [...client.view].map(([name, entry]) => `${name} ${entry.version}`));
  if (found.length > 0) {
    const shown = new Map(modules.map((row) => row.split(' ')));
    client.view.forEach((entry, name) => {
      if (shown.has(name)) entry.version = Number(shown.get(name));
      else client.view.delete(name);
    });
  }
  found.push(...difference('show', stale, client.staleEdges().map((edge) => `${edge.from} ${edge.to}`)));
  client.shownStale = new Set(stale);
  client.state = head.split(' ')[2];
  return found;
}

function compareFates(client, rows) {
  const live = rows.filter((row) => /^instance .* live$/.test(row)).map((row) => row.split(' ').slice(1, 4).join(' '));
  return difference('fates', live, [...client.view].map(([name, entry]) => `${entry.number} ${name} ${entry.version}`));
}

function compareFresh(roots, server, rows) {
  const { met } = new Client(0, 1, roots).walk((name) => server.served.get(name));
  const worked = met.map((name) => {
    const served = server.served.get(name);
    return served === undefined ? `missing ${name}` : `${name} ${served.version}`;
  });
  return difference('fresh', rows.filter((row) => !row.startsWith('unlinked ')), worked);
}

/** The exports of each module, as `name = value`. */
function valuesIn(rows) {
  const values = {};
  rows.forEach((row) => {
    const [, name, exported, ...value] = row.split(' ');
    (values[name] ??= []).push(`${exported} = ${value.join(' ')}`);
  });
  return values;
}

module.exports = { REPORTS, difference, compareShow, compareFates, compareFresh, valuesIn };
