// The SVG of one page at one step. This file runs in Node and, as it is, in the page that is written.
'use strict';

const PICTURE = (() => {
  const VALUE_ROWS = 3;

  const escaped = (text) => String(text).replace(/[&<>"]/g, (c) => `&#${c.charCodeAt(0)};`);

  const cut = (text, most) => (text.length <= most ? text : `${text.slice(0, most - 1)}…`);

  /** A path through the points, from below the first to above the last, straight at its ends. */
  function curve(points, shift) {
    const parts = [`M${points[0].x + shift} ${points[0].bottom}`];
    for (let i = 1; i < points.length; i += 1) {
      const from = { x: points[i - 1].x + shift, y: points[i - 1].bottom };
      const to = { x: points[i].x + shift, y: points[i].top };
      const middle = (from.y + to.y) / 2;
      parts.push(`C${from.x} ${middle} ${to.x} ${middle} ${to.x} ${to.y}`);
      if (points[i].bottom !== points[i].top && i < points.length - 1) parts.push(`L${to.x} ${points[i].bottom}`);
    }
    return parts.join('');
  }

  /** The same from the last point's top back to the first one's bottom, for an import that leads back up. */
  function backCurve(points, shift) {
    const reversed = [...points].reverse().map((point) => ({ x: point.x, top: point.bottom, bottom: point.top }));
    return curve(reversed, shift);
  }

  const pill = (x, y, text) => {
    const width = text.length * 6.6 + 14;
    return `<g class="pill" transform="translate(${x} ${y})">`
      + `<rect x="${-width / 2}" y="-10" width="${width}" height="20" rx="10"/>`
      + `<text text-anchor="middle" y="4">${escaped(text)}</text></g>`;
  };

  function edgeShape(edge, line, marks, label, heights) {
    const shift = line.isBack ? 16 : edge.pairs ? -16 : 0;
    const kinds = ['edge'];
    if (edge.stale) kinds.push('stale');
    if (edge.gone) kinds.push('gone');
    if (onPath(marks.path, edge)) kinds.push('path');
    const [upper, ...more] = line.points;
    const first = { ...upper, bottom: upper.top + heights.get(line.isBack ? edge.to : edge.from) };
    const last = more[more.length - 1];
    const points = [first, ...more];
    const d = line.isBack ? backCurve(points, shift) : curve(points, shift);
    const head = edge.stale ? 'stale' : onPath(marks.path, edge) ? 'path' : 'plain';
    const gate = line.isBack ? { x: last.x + shift, y: last.top - 10 } : { x: first.x + shift, y: first.bottom + 10 };
    const from = escaped(edge.from);
    const to = escaped(edge.to);
    const accepted = !edge.accepted ? ''
      : `<circle class="gate" cx="${gate.x}" cy="${gate.y}" r="5"><title>${from} accepts ${to}</title></circle>`;
    const text = edge.stale ? (edge.held === null ? 'stale' : `stale: still v${edge.held}`) : '';
    const middle = { x: (first.x + last.x) / 2 + shift, y: (first.bottom + last.top) / 2 };
    return `<g class="${kinds.join(' ')}" data-from="${from}" data-to="${to}">`
      + `<path d="${d}" marker-end="url(#${label}-${head})"/>${accepted}`
      + `${text === '' ? '' : pill(middle.x, middle.y, text)}</g>`;
  }

  /** An unaccepted path goes from what changed to its importer, so against the arrow. */
  function onPath(path, edge) {
    return (path ?? []).some((name, i) => name === edge.to && path[i + 1] === edge.from);
  }

  /** What a step did to a module: the class of its box, and the words under its name. */
  function tagged(name, module, marks) {
    const kinds = [];
    const tags = [];
    const path = marks.path ?? [];
    const place = path.indexOf(name);
    if (place >= 0) {
      kinds.push('path');
      const end = marks.cause === 'root' ? 'reaches a root' : 'reaches a decliner';
      if (place === 0) tags.push('changed');
      tags.push(place === path.length - 1 ? end : 'not accepted');
    }
    if ((marks.replaced ?? []).includes(name)) tags.push('replaced');
    if ((marks.made ?? []).includes(name)) tags.push('new instance');
    if (tags.length > 0 && place < 0) kinds.push('replaced');
    if ((marks.boundaries ?? []).some(([who]) => who === name)) {
      kinds.push('boundary');
      tags.push('boundary');
    }
    if ((marks.pruned ?? []).includes(name)) tags.push('pruned');
    if (module?.forced) tags.push('invalidated');
    if (module?.fault) {
      kinds.push('faulted');
      tags.push(module.fault);
    }
    if (module !== undefined && module.served !== module.version && tags.length === 0) {
      kinds.push('behind');
      tags.push(module.served === null ? 'no longer served' : `v${module.served} is served`);
    }
    if (module === undefined) {
      kinds.push('absent');
      if (tags.length === 0) tags.push('not on the page');
    }
    return { kinds, tag: tags.join(' · ') };
  }

  function valuesOf(name, marks) {
    const rows = marks.values?.[name] ?? [];
    if (rows.length <= VALUE_ROWS) return rows;
    return [...rows.slice(0, VALUE_ROWS - 1), `… ${rows.length - VALUE_ROWS + 1} more`];
  }

  function factsOf(module) {
    const facts = [[module?.root, 'root'], [module?.acceptsItself, 'accepts itself'], [module?.declines, 'declines']];
    return facts.filter(([holds]) => holds).map(([, fact]) => fact);
  }

  function heightOf(name, module, marks) {
    const values = valuesOf(name, marks).length;
    return 52 + (tagged(name, module, marks).tag === '' ? 0 : 18) + (values === 0 ? 0 : values * 17 + 10);
  }

  function nodeShape(name, place, module, marks) {
    const { kinds, tag } = tagged(name, module, marks);
    const left = place.x - place.width / 2;
    const text = (kind, x, y, said, anchor = '') => `<text class="${kind}"${anchor} x="${x}" y="${place.top + y}">`
      + `${escaped(said)}</text>`;
    const atEnd = ' text-anchor="end"';
    const height = heightOf(name, module, marks);
    const right = left + place.width - 14;
    const inner = tag === '' ? 52 : 70;
    const rows = valuesOf(name, marks);
    return `<g class="${['node', ...kinds].join(' ')}" data-name="${escaped(name)}"><title>${escaped(name)}</title>`
      + `<rect x="${left}" y="${place.top}" width="${place.width}" height="${height}" rx="9"/>`
      + text('name', left + 14, 22, place.label)
      + (module === undefined ? '' : text('version', right, 22, `v${module.version}`, atEnd))
      + (module === undefined ? '' : text('number', right, 41, `#${module.number}`, atEnd))
      + text('about', left + 14, 41, factsOf(module).join(' · '))
      + (tag === '' ? '' : text('tag', left + 14, 60, cut(tag, Math.floor((place.width - 28) / 6.4))))
      + (rows.length === 0 ? '' : `<path class="rule" d="M${left} ${place.top + inner}h${place.width}"/>`)
      + rows.map((row, i) => text('value', left + 14, inner + 16 + i * 17, cut(row, 34))).join('')
      + '</g>';
  }

  function markers(label) {
    const box = 'viewBox="0 0 10 10" refX="9" refY="5" markerWidth="7" markerHeight="7" orient="auto-start-reverse"';
    return ['plain', 'stale', 'path'].map((kind) => `<marker id="${label}-${kind}" class="head ${kind}" ${box}>`
      + '<path d="M0 1L9 5L0 9z"/></marker>').join('');
  }

  /** The drawing of a client: its modules and imports at their places, and what the step did. */
  function draw(client, layout, marks, { style = '', scale = 1 } = {}) {
    const label = `page${client.id}`;
    const modules = new Map(client.modules.map((module) => [module.name, module]));
    const lists = [marks.path, marks.replaced, marks.pruned, marks.boundaries?.flat()];
    const marked = new Set(lists.flatMap((list) => list ?? []));
    const imported = new Set(client.edges.map((edge) => edge.to));
    const others = new Set([...client.roots, ...marked, ...imported]);
    const isDrawn = (name) => modules.has(name) || others.has(name);
    const names = Object.keys(layout.nodes).filter(isDrawn);
    const heights = new Map(names.map((name) => [name, heightOf(name, modules.get(name), marks)]));
    const pairs = new Set(client.edges.map((edge) => `${edge.to} ${edge.from}`));
    const keyOf = (edge) => `${edge.from} ${edge.to}`;
    const edges = client.edges.filter((edge) => layout.edges[keyOf(edge)] !== undefined)
      .map((edge) => ({ ...edge, pairs: pairs.has(keyOf(edge)), gone: !modules.has(edge.to) }))
      .sort((a, b) => Number(a.stale) - Number(b.stale));
    const { width, height } = layout;
    return `<svg xmlns="http://www.w3.org/2000/svg" class="page" width="${width * scale}" height="${height * scale}"`
      + ` viewBox="0 0 ${width} ${height}" role="img" aria-label="Modules of client ${client.id}">`
      + `${style}<defs>${markers(label)}</defs>`
      + names.map((name) => nodeShape(name, layout.nodes[name], modules.get(name), marks)).join('')
      + edges.map((edge) => edgeShape(edge, layout.edges[keyOf(edge)], marks, label, heights)).join('')
      + '</svg>';
  }

  return { draw, escaped };
})();

if (typeof module !== 'undefined') module.exports = PICTURE;
