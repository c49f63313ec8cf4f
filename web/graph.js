// The shared graph of a term: its text for Graphviz is read and laid out in layers, each edge downwards. Edges that
// pass layers on their way to one node go down as one trunk.

const NODE_LINE = /^  n(\d+) \[label="((?:[^"\\]|\\[^])*)"\];$/;
const EDGE_LINE = /^  n(\d+) -> n(\d+) \[label="(\w+)"\];$/;
const REST_LINE = /^  rest \[label="(\d+) more"/;
const LONGEST_LABEL = 24;   // characters
const SIZES = { letter: 8, inside: 14, row: 26, between: 44, apart: 14, trunk: 2, edge: 12 };  // pixels
const ROUNDS = 8;           // of sorting, and of moving
const TRUNK_WEIGHT = 4;     // of a trunk that has to give way, beside a node's
// How much a link draws both ends together, by whether they are trunks: so trunks are straight, and move no node.
const PULLS = { along: 8, between: 1, onto: 0.05 };

// The nodes and edges that the lines of a graph tell, and how many nodes were left out.
function readGraph(text) {
  const graph = { nodes: [], edges: [], rest: 0 };
  for (const line of text.split('\n')) {
    const node = NODE_LINE.exec(line), edge = EDGE_LINE.exec(line), rest = REST_LINE.exec(line);
    if (node) graph.nodes[Number(node[1])] = { label: labelOf(node[2]) };
    else if (edge) graph.edges.push({ from: Number(edge[1]), to: Number(edge[2]), label: edge[3] });
    else if (rest) graph.rest = Number(rest[1]);
  }
  return graph;
}

// Whether a cell is one of a list: no name is printed so.
function isOfList({ label }) { return label === '.' || label === '[]'; }

// The graph of terms alone: instead of lists of arguments and of annotations there are edges to their items, and a list
// that is a term itself is one node.
function withoutLists({ nodes, edges, rest }) {
  const beside = nodes.map(() => ({}));
  for (const { from, to, label } of edges) beside[from][label] = to;
  const made = { nodes: [], edges: [], rest: 0, isOpen: rest > 0 }, numbers = new Map(), ahead = [];

  function numberOf(cell) {
    if (!numbers.has(cell)) {
      numbers.set(cell, made.nodes.length);
      made.nodes.push({ label: nodes[cell].label === '.' ? '[…]' : nodes[cell].label });
      ahead.push(cell);
    }
    return numbers.get(cell);
  }

  function link(from, list, label) {
    for (let cell = list; cell !== undefined && nodes[cell].label === '.'; cell = beside[cell].tail) {
      const { head } = beside[cell];
      if (head !== undefined) made.edges.push({ from, to: numberOf(head), label });
    }
  }

  if (nodes.length) numberOf(0);
  for (let i = 0; i < ahead.length; i++) {
    const cell = ahead[i], { args, inner, annotations } = beside[cell];
    if (isOfList(nodes[cell])) link(i, cell, 'element');
    link(i, args, 'argument');
    if (inner !== undefined) made.edges.push({ from: i, to: numberOf(inner), label: 'inner' });
    link(i, annotations, 'annotation');
  }
  return made;
}

// The first nodes of a graph, and how many were left out.
function firstNodes({ nodes, edges, rest, isOpen }, most) {
  return {
    nodes: nodes.slice(0, most),
    edges: edges.filter((it) => it.from < most && it.to < most),
    rest: rest + Math.max(0, nodes.length - most),
    isOpen,
  };
}

function labelOf(written) {
  return written.replace(/\\([^])/g, '$1').replace(/&amp;/g, '&');
}

function shortened(label) {
  return label.length <= LONGEST_LABEL ? label : `${label.slice(0, LONGEST_LABEL - 1)}…`;
}

// The layer of each node: the first that is below all nodes that lead to it.
function layersOf({ nodes, edges }) {
  const layers = nodes.map(() => 0), awaited = nodes.map(() => 0), below = nodes.map(() => []);
  for (const { from, to } of edges) {
    awaited[to] += 1;
    below[from].push(to);
  }
  const passed = [...nodes.keys()].filter((it) => awaited[it] === 0);
  for (const node of passed) {
    for (const to of below[node]) {
      layers[to] = Math.max(layers[to], layers[node] + 1);
      awaited[to] -= 1;
      if (awaited[to] === 0) passed.push(to);
    }
  }
  if (passed.length < nodes.length) throw new Error('an edge leads back');
  return layers;
}

// What stands in the layers: a slot for each node, and for each layer that a trunk passes; and the links between slots
// of neighbouring layers. A link leaves a node at its port, so far from the middle.
function slotsOf({ nodes, edges }, layers) {
  const links = [], trunks = nodes.map(() => []);
  const slots = nodes.map(({ label }, node) => (
    { node, layer: layers[node], width: shortened(label).length * SIZES.letter + SIZES.inside, weight: 1, x: 0 }));

  function link(from, to, port) {
    links.push({ from, to, port });
    return to;
  }

  // the slot in a layer through which one comes to a node
  function towards(node, layer) {
    if (layer === layers[node]) return slots[node];
    if (!trunks[node][layer]) {
      const slot = { node, layer, width: SIZES.trunk, weight: TRUNK_WEIGHT, x: 0, isTrunk: true };
      trunks[node][layer] = slot;
      slots.push(slot);
      link(slot, towards(node, layer + 1), 0);
    }
    return trunks[node][layer];
  }

  const ports = portsOf(edges, slots);
  edges.forEach(({ from, to }, i) => link(slots[from], towards(to, layers[from] + 1), ports[i]));
  return { slots, links, ports, towards };
}

// Where each edge leaves its node, from left to right in their order.
function portsOf(edges, slots) {
  const counts = new Map(), seen = new Map();
  for (const { from } of edges) counts.set(from, (counts.get(from) || 0) + 1);
  return edges.map(({ from }) => {
    const place = (seen.get(from) || 0) + 1;
    seen.set(from, place);
    return (place / (counts.get(from) + 1) - 0.5) * slots[from].width;
  });
}

// The slots of each layer, in the order in which one meets them who goes down from the first node on.
function rowsOf(slots, links) {
  const rows = [], below = new Map(slots.map((it) => [it, []])), met = new Set();
  for (const { from, to } of links) below.get(from).push(to);
  const ahead = slots.filter((it) => !it.isTrunk && it.layer === 0).reverse();
  while (ahead.length) {
    const slot = ahead.pop();
    if (met.has(slot)) continue;
    met.add(slot);
    (rows[slot.layer] = rows[slot.layer] || []).push(slot);
    ahead.push(...below.get(slot).reverse());
  }
  return rows;
}

function number(row) { row.forEach((it, i) => { it.place = i; }); }

// How often links cross that leave one layer.
function crossings(links) {
  const sorted = [...links].sort((a, b) => a.from.place - b.from.place || a.port - b.port);
  let count = 0;
  sorted.forEach((one, i) => {
    for (let k = i + 1; k < sorted.length; k++) count += sorted[k].to.place < one.to.place;
  });
  return count;
}

// The mean of places, each `{at, pull}`; without any, another one.
function meanOf(places, otherwise) {
  const sum = (of) => places.reduce((all, it) => all + of(it), 0);
  return places.length ? sum((it) => it.at * it.pull) / sum((it) => it.pull) : otherwise;
}

// Sorts a layer by where its neighbours in another one stand.
function sortRow(row, placesBeside) {
  const wished = new Map(row.map((it) => [it, meanOf(placesBeside(it), it.place)]));
  row.sort((a, b) => wished.get(a) - wished.get(b) || a.place - b.place);
  number(row);
}

// The links of a slot to the layer above and to that below.
function neighboursOf(slots, links) {
  const beside = new Map(slots.map((it) => [it, { above: [], below: [] }]));
  for (const it of links) {
    beside.get(it.to).above.push(it);
    beside.get(it.from).below.push(it);
  }
  return beside;
}

// Sorts the layers by those above and by those below them in turn, and keeps the order with the fewest crossings.
function sortRows(rows, links, beside) {
  const leaving = rows.map(() => []);
  for (const it of links) leaving[it.from.layer].push(it);
  const count = () => leaving.reduce((sum, it) => sum + crossings(it), 0);
  rows.forEach(number);
  let best = rows.map((it) => [...it]), fewest = count();
  for (let round = 0; round < ROUNDS && fewest > 0; round++) {
    const down = (it) => beside.get(it).above.map(({ from, port }) => (
      { at: from.place + port / (from.width + 1), pull: 1 }));
    const up = (it) => beside.get(it).below.map(({ to }) => ({ at: to.place, pull: 1 }));
    if (round % 2 === 0) rows.forEach((row) => sortRow(row, down));
    else [...rows].reverse().forEach((row) => sortRow(row, up));
    const now = count();
    if (now < fewest) { fewest = now; best = rows.map((it) => [...it]); }
  }
  best.forEach(number);
  return best;
}

// How far the middles of two neighbours in a layer are apart.
function apart(left, right) {
  const gap = left.isTrunk && right.isTrunk ? SIZES.edge : SIZES.apart;
  return (left.width + right.width) / 2 + gap;
}

// Moves the slots of a layer as near as can be to where they wish to be, in their order and apart: those that would
// come too near to each other move as one, to where they wish to be on average.
function moveRow(row, wishes) {
  const blocks = [];
  let offset = 0;
  row.forEach((slot, i) => {
    offset += i === 0 ? 0 : apart(row[i - 1], slot);
    slot.offset = offset;
    let block = { at: wishes[i] - offset, weight: slot.weight, slots: [slot] };
    while (blocks.length && blocks.at(-1).at >= block.at) {
      const left = blocks.pop(), weight = left.weight + block.weight;
      const at = (left.at * left.weight + block.at * block.weight) / weight;
      block = { at, weight, slots: left.slots.concat(block.slots) };
    }
    blocks.push(block);
  });
  for (const { at, slots } of blocks) for (const it of slots) it.x = at + it.offset;
}

function pullOf({ from, to }) {
  if (from.isTrunk) return to.isTrunk ? PULLS.along : PULLS.between;
  return to.isTrunk ? PULLS.onto : PULLS.between;
}

// Gives each slot its place from the left: below what leads to it, and above what it leads to.
function moveRows(rows, beside) {
  const above = (it) => beside.get(it).above.map((link) => ({ at: link.from.x, pull: pullOf(link) }));
  const below = (it) => beside.get(it).below.map((link) => ({ at: link.to.x, pull: pullOf(link) }));
  const both = (it) => above(it).concat(below(it));
  const move = (row, placesBeside) => moveRow(row, row.map((it) => meanOf(placesBeside(it), it.x)));
  rows.forEach((row) => moveRow(row, row.map(() => 0)));
  for (let round = 0; round < ROUNDS; round++) {
    rows.forEach((row) => move(row, above));
    [...rows].reverse().forEach((row) => move(row, round < ROUNDS - 2 ? below : both));
  }
}

// The points of an edge, each further down: from its node's port along a trunk to the other node.
function routeOf({ from, to }, port, { slots, towards }, top) {
  const points = [[slots[from].x + port, top(slots[from]) + SIZES.row]];
  let slot = towards(to, slots[from].layer + 1);
  while (slot.isTrunk) {
    points.push([slot.x, top(slot)], [slot.x, top(slot) + SIZES.row]);
    slot = towards(to, slot.layer + 1);
  }
  points.push([slot.x, top(slot)]);
  return points;
}

// Where all of a graph stands: boxes for the nodes by their middle and top, and points for the edges, in pixels.
function layOut(graph) {
  const made = slotsOf(graph, layersOf(graph)), { slots, links, ports } = made;
  const beside = neighboursOf(slots, links);
  const rows = sortRows(rowsOf(slots, links), links, beside);
  moveRows(rows, beside);
  const left = Math.min(...slots.map((it) => it.x - it.width / 2)) - SIZES.apart;
  for (const it of slots) it.x -= left;
  const top = ({ layer }) => SIZES.apart + layer * (SIZES.row + SIZES.between);
  const boxes = graph.nodes.map(({ label }, i) => (
    { label: shortened(label), x: slots[i].x, y: top(slots[i]), width: slots[i].width, layer: slots[i].layer }));
  return {
    nodes: boxes,
    edges: graph.edges.map((edge, i) => ({ ...edge, points: routeOf(edge, ports[i], made, top) })),
    width: Math.max(...slots.map((it) => it.x + it.width / 2)) + SIZES.apart,
    height: top({ layer: rows.length }) - SIZES.between + SIZES.apart,
  };
}

if (typeof module !== 'undefined') module.exports = { readGraph, withoutLists, firstNodes, layersOf, layOut, SIZES };
