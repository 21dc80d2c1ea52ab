// Where the modules of a page are drawn: in layers, importers above what they import.
//
// One layout serves all steps of a client, so that a module stays in its place. Edges of a cycle that
// lead back up are laid out reversed; an edge over several layers has a point in each layer between.
'use strict';

const CHARACTER = 7.9;
const NAME_CHARACTERS = 30;
const VALUE_CHARACTERS = 34;
const NODE_WIDTH = 186;
const NODE_HEIGHT = 70;
const VALUE_HEIGHT = 17;
const GAP = 44;
const LAYER_GAP = 72;
const POINT_WIDTH = 16;
const MARGIN = 12;

/** A text of at most so many characters, its middle left out. */
function shortened(text, most) {
  if (text.length <= most) return text;
  const half = Math.floor((most - 1) / 2);
  return `${text.slice(0, half)}…${text.slice(text.length - half)}`;
}

/** The edges that lead back to a module on the way to them from the roots. */
function backEdges(names, next) {
  const back = new Set();
  const state = new Map();
  for (const start of names) {
    if (state.has(start)) continue;
    const stack = [{ name: start, at: 0 }];
    state.set(start, 'open');
    while (stack.length > 0) {
      const top = stack[stack.length - 1];
      const to = next.get(top.name)[top.at];
      top.at += 1;
      if (to === undefined) {
        state.set(top.name, 'closed');
        stack.pop();
      } else if (state.get(to) === 'open') {
        back.add(`${top.name} ${to}`);
      } else if (!state.has(to)) {
        state.set(to, 'open');
        stack.push({ name: to, at: 0 });
      }
    }
  }
  return back;
}

/** The layer of each name: one more than the lowest of those that lead to it. */
function layersOf(names, down) {
  const waits = new Map(names.map((name) => [name, 0]));
  down.forEach(([, to]) => waits.set(to, waits.get(to) + 1));
  const layer = new Map(names.map((name) => [name, 0]));
  const ready = names.filter((name) => waits.get(name) === 0);
  const below = new Map(names.map((name) => [name, []]));
  down.forEach(([from, to]) => below.get(from).push(to));
  while (ready.length > 0) {
    const name = ready.shift();
    for (const to of below.get(name)) {
      layer.set(to, Math.max(layer.get(to), layer.get(name) + 1));
      waits.set(to, waits.get(to) - 1);
      if (waits.get(to) === 0) ready.push(to);
    }
  }
  return layer;
}

/** The middle of what a place is linked to. */
function middleOf(place) {
  return place.around.reduce((sum, other) => sum + other.x, 0) / place.around.length || place.x;
}

/** Sets a layer's places side by side in its order, each as near to where it wants to be as it can. */
function spread(layer, wanted) {
  layer.forEach((place, i) => {
    const left = layer[i - 1];
    const least = left === undefined ? -Infinity : left.x + left.width / 2 + GAP + place.width / 2;
    place.x = Math.max(least, wanted(place));
  });
  for (let i = layer.length - 2; i >= 0; i -= 1) {
    const right = layer[i + 1];
    const most = right.x - right.width / 2 - GAP - layer[i].width / 2;
    layer[i].x = Math.min(layer[i].x, Math.max(most, wanted(layer[i])));
  }
}

/** An even width with room for the name, the version, and the widest value. */
function widthOf(name, value) {
  const wanted = Math.max(NODE_WIDTH, shortened(name, NAME_CHARACTERS).length * CHARACTER + 84,
    Math.min(value, VALUE_CHARACTERS) * CHARACTER + 28);
  return 2 * Math.ceil(wanted / 2);
}

/** Places of names and points of edges. `edges` are pairs of an importer and what it imports. */
function layOut(names, edges, valueRows) {
  const next = new Map(names.map((name) => [name, []]));
  edges.forEach(([from, to]) => next.get(from).push(to));
  const back = backEdges(names, next);
  const drawn = edges.filter(([from, to]) => from !== to);
  const down = drawn.map(([from, to]) => (back.has(`${from} ${to}`) ? [to, from] : [from, to]));
  const layerOf = layersOf(names, down);
  const layers = [];
  const addPlace = (layer, place) => {
    (layers[layer] ??= []).push(place);
    return place;
  };
  const rowsOf = (name) => Math.min(valueRows.get(name)?.rows ?? 0, 3);
  const places = new Map(names.map((name) => [name, addPlace(layerOf.get(name), {
    width: widthOf(name, valueRows.get(name)?.width ?? 0),
    height: NODE_HEIGHT + (rowsOf(name) === 0 ? 0 : rowsOf(name) * VALUE_HEIGHT + 10),
    around: [],
    x: 0,
  })]));
  const lines = drawn.map(([from, to], i) => {
    const [upper, lower] = down[i];
    const points = [places.get(upper)];
    for (let layer = layerOf.get(upper) + 1; layer < layerOf.get(lower); layer += 1) {
      points.push(addPlace(layer, { width: POINT_WIDTH, height: 0, around: [], x: 0 }));
    }
    points.push(places.get(lower));
    points.slice(1).forEach((point, k) => {
      point.around.push(points[k]);
      points[k].around.push(point);
    });
    return { from, to, points, isBack: upper !== from };
  });
  layers.forEach((layer) => spread(layer, (place) => place.x));
  for (let pass = 0; pass < 12; pass += 1) {
    const order = pass % 2 === 0 ? layers : [...layers].reverse();
    order.forEach((layer) => {
      const wanted = new Map(layer.map((place) => [place, middleOf(place)]));
      if (pass < 8) layer.sort((a, b) => wanted.get(a) - wanted.get(b));
      spread(layer, (place) => wanted.get(place));
    });
  }
  return placed(names, places, layers, lines);
}

/** The layout with its corner at the margin, and its size. */
function placed(names, places, layers, lines) {
  let y = MARGIN;
  layers.forEach((layer) => {
    const height = Math.max(...layer.map((place) => place.height), NODE_HEIGHT);
    layer.forEach((place) => {
      place.y = y;
      place.bottom = place.height === 0 ? y + height : y + place.height;
    });
    y += height + LAYER_GAP;
  });
  const all = layers.flat();
  if (all.length === 0) return { width: 2 * MARGIN, height: 2 * MARGIN, nodes: {}, edges: {} };
  const left = Math.min(...all.map((place) => place.x - place.width / 2));
  const right = Math.max(...all.map((place) => place.x + place.width / 2));
  const shift = MARGIN - left;
  const point = (place) => ({ x: Math.round(place.x + shift), top: place.y, bottom: place.bottom });
  return {
    width: Math.ceil(right - left + 2 * MARGIN),
    height: Math.ceil(Math.max(y - LAYER_GAP + MARGIN, 2 * MARGIN + NODE_HEIGHT)),
    nodes: Object.fromEntries(names.map((name) => {
      const place = places.get(name);
      return [name, { ...point(place), width: place.width, label: shortened(name, NAME_CHARACTERS) }];
    })),
    edges: Object.fromEntries(lines.map((line) => [`${line.from} ${line.to}`, {
      points: line.points.map(point),
      isBack: line.isBack,
    }])),
  };
}

/** A layout for each client: its modules and imports at any step, and the room for its values. */
function layouts({ items, states }) {
  const pages = new Map();
  const pageOf = (id) => {
    if (!pages.has(id)) pages.set(id, { names: new Set(), edges: new Set(), values: new Map() });
    return pages.get(id);
  };
  items.forEach((item) => {
    item.clients.map((place) => states[place]).forEach((client) => {
      const page = pageOf(client.id);
      client.roots.forEach((root) => page.names.add(root));
      client.modules.forEach((module) => page.names.add(module.name));
      client.edges.forEach((edge) => {
        page.names.add(edge.to);
        page.edges.add(`${edge.from} ${edge.to}`);
      });
    });
    if (item.client === null) return;
    const page = pageOf(item.client);
    const names = [item.marks.path ?? [], ...(item.marks.boundaries ?? []), item.marks.replaced ?? []].flat();
    names.forEach((name) => page.names.add(name));
    Object.entries(item.marks.values ?? {}).forEach(([name, rows]) => {
      page.names.add(name);
      const old = page.values.get(name) ?? { rows: 0, width: 0 };
      page.values.set(name, {
        rows: Math.max(old.rows, rows.length),
        width: Math.max(old.width, ...rows.map((row) => row.length)),
      });
    });
  });
  return Object.fromEntries([...pages].map(([id, page]) => [
    id,
    layOut([...page.names], [...page.edges].map((edge) => edge.split(' ')), page.values),
  ]));
}

module.exports = { layouts };
