// The tab of a graph: the shared graph of a value, or of the tab of a term, as a picture.

const SCALES = [0.35, 0.5, 0.7, 1, 1.4, 2];
const KINDS = { args: 'arguments', head: 'head', tail: 'tail', inner: 'inner term', annotations: 'annotations',
  argument: 'argument', element: 'element', annotation: 'annotation' };
const EDGES = {
  cells: `Edges lead downwards: solid ones to arguments, to the first element of a list (which is a dot), and to the
    inner term of a placeholder; dashed ones to the rest of a list; dotted ones to annotations.`,
  terms: `Edges lead downwards: solid ones to arguments from left to right, to the elements of a list, and to the inner
    term of a placeholder; dotted ones to annotations.`,
};
const SPACE = 'http://www.w3.org/2000/svg';

const drawing = { graph: null, nodes: [], edges: [], scale: 3, lit: 0 };

function shape(name, attributes, ...children) {
  const made = document.createElementNS(SPACE, name);
  for (const [key, value] of Object.entries(attributes)) made.setAttribute(key, value);
  made.append(...children);
  return made;
}

// The values of the last evaluation, as lines have them.
function valuesThere() {
  const lines = last ? decoded(last).split('\n').slice(0, -1) : [];
  return lines.filter((it) => !it.startsWith('!')).map((it) => it.split('\t')[0]).slice(0, MOST_LINES);
}

function listGraphs() {
  const list = byId('graph-of'), chosen = Math.max(0, list.selectedIndex), values = valuesThere();
  const items = values.map((it, i) => element('option', { value: it }, `value ${i + 1}: ${shortText(it)}`));
  const term = byId('term-text').value;
  items.push(element('option', { value: term }, `the term of the tab “a term”: ${shortText(term)}`));
  list.replaceChildren(...items);
  list.selectedIndex = Math.min(chosen, items.length - 1);
}

async function showGraph(runner) {
  listGraphs();
  const isOfTerms = byId('graph-terms').checked;
  byId('graph-lines').textContent = EDGES[isOfTerms ? 'terms' : 'cells'];
  const told = await runner.run('graph', { term: byId('graph-of').value, isOfTerms });
  if (!told) return;
  byId('graph-sheet').hidden = !told.graph;
  byId('graph-save').disabled = !told.graph;
  byId('graph-node').textContent = '';
  if (told.graph) { drawGraph(told); return; }
  const failure = told.broken || told.fault;
  byId('graph-said').textContent = failure ? `The run stopped: ${failure}.` : 'The term is rejected.';
}

function drawGraph({ graph, places }) {
  drawing.graph = graph;
  drawing.size = places;
  drawing.nodes = places.nodes.map(nodeShape);
  drawing.edges = places.edges.map(edgeShape);
  const count = wordsOfCount(graph);
  const picture = shape('svg', { viewBox: `0 0 ${places.width} ${places.height}`, role: 'group',
    'aria-label': `A graph of ${count}; the arrow keys go from one to the next` }, ...drawing.edges, ...drawing.nodes);
  byId('graph-sheet').replaceChildren(picture);
  byId('graph-said').textContent = wordsOfRest(graph, count);
  scaleGraph(drawing.scale);
  offerNode(0);
}

function wordsOfCount({ nodes }) {
  return plural(nodes.length, byId('graph-terms').checked ? 'different term' : 'cell');
}

function wordsOfRest({ rest, isOpen }, count) {
  if (!rest && !isOpen) return `${count}.`;
  if (isOpen) return `${count} are drawn; more are not.`;
  return `${count} are drawn; ${rest.toLocaleString('en')} more are not.`;
}

// The picture as a file: with the colours of the day, since a file has no others.
function savePicture() {
  const picture = byId('graph-sheet').firstElementChild.cloneNode(true), { width, height } = drawing.size;
  for (const it of picture.querySelectorAll('*')) for (const name of ['tabindex', 'role']) it.removeAttribute(name);
  for (const [name, value] of Object.entries({ xmlns: SPACE, width, height })) picture.setAttribute(name, value);
  const style = document.createElementNS(SPACE, 'style');
  style.textContent = data.picture;
  picture.prepend(style);
  saveFile('graph.svg', new XMLSerializer().serializeToString(picture), 'image/svg+xml');
}

function nodeShape({ label, x, y, width }, i) {
  const box = shape('rect', { x: x - width / 2, y, width, height: SIZES.row, rx: 4 });
  const text = shape('text', { x, y: y + SIZES.row / 2 }, label);
  const made = shape('g', { class: 'node', role: 'img', tabindex: -1, 'aria-label': wordsOfNode(i) }, box, text);
  made.addEventListener('mouseenter', () => lightUp(i));
  made.addEventListener('focus', () => { offerNode(i); lightUp(i); });
  return made;
}

function edgeShape({ label, points }) {
  let way = `M${points[0].join(' ')}`;
  for (let i = 1; i < points.length; i += 2) {
    const [x, y] = points[i - 1], [to, down] = points[i], middle = (y + down) / 2;
    way += `C${x} ${middle} ${to} ${middle} ${to} ${down}`;
    if (i + 1 < points.length) way += `L${points[i + 1].join(' ')}`;
  }
  return shape('path', { class: `edge ${label}`, d: way });
}

// What a node leads to, and what names it.
function wordsOfNode(i) {
  const { nodes, edges } = drawing.graph, name = (at) => `${nodes[at].label} (${at + 1})`;
  const own = edges.filter((it) => it.from === i).map((it) => `${KINDS[it.label]} ${name(it.to)}`);
  const naming = edges.filter((it) => it.to === i).map((it) => `${name(it.from)} as ${KINDS[it.label]}`);
  const leads = own.length ? `; ${own.join(', ')}` : '';
  return `${name(i)}${leads}; ${naming.length ? `referred to by ${naming.join(', ')}` : 'the whole term'}`;
}

// Lights a node up with all that names it.
function lightUp(at) {
  const { nodes, edges, graph } = drawing;
  const naming = new Set(graph.edges.filter((it) => it.to === at).map((it) => it.from));
  nodes.forEach((it, i) => {
    it.classList.toggle('lit', i === at);
    it.classList.toggle('naming', naming.has(i));
  });
  edges.forEach((it, i) => it.classList.toggle('lit', graph.edges[i].to === at));
  drawing.lit = at;
  byId('graph-node').textContent = wordsOfNode(at);
}

// One node at a time can be come to by Tab.
function offerNode(at) {
  drawing.nodes.forEach((it, i) => it.setAttribute('tabindex', i === at ? 0 : -1));
}

// The node that lies beyond another one, where an arrow points to: along an edge, or in the same layer.
function nodeBeyond(at, key) {
  const { edges } = drawing.graph, { nodes } = drawing.size;
  if (key === 'ArrowDown') return edges.filter((it) => it.from === at).map((it) => it.to)[0];
  if (key === 'ArrowUp') return edges.filter((it) => it.to === at).map((it) => it.from)[0];
  const row = [...nodes.keys()].filter((it) => nodes[it].layer === nodes[at].layer);
  row.sort((a, b) => nodes[a].x - nodes[b].x);
  return row[row.indexOf(at) + { ArrowLeft: -1, ArrowRight: 1 }[key]];
}

function scaleGraph(scale) {
  drawing.scale = Math.max(0, Math.min(scale, SCALES.length - 1));
  const picture = byId('graph-sheet').firstElementChild, { width, height } = drawing.size;
  picture.setAttribute('width', width * SCALES[drawing.scale]);
  picture.setAttribute('height', height * SCALES[drawing.scale]);
  byId('graph-smaller').disabled = drawing.scale === 0;
  byId('graph-larger').disabled = drawing.scale === SCALES.length - 1;
}

function listenToGraph(runner) {
  const panel = byId('graph');
  if (!panel) return;
  for (const it of ['shown', 'answered']) panel.addEventListener(it, () => showGraph(runner));
  for (const it of ['graph-of', 'graph-terms']) byId(it).addEventListener('change', () => showGraph(runner));
  byId('graph-save').addEventListener('click', savePicture);
  byId('graph-smaller').addEventListener('click', () => scaleGraph(drawing.scale - 1));
  byId('graph-larger').addEventListener('click', () => scaleGraph(drawing.scale + 1));
  byId('graph-sheet').addEventListener('keydown', (event) => {
    if (!/^Arrow/.test(event.key) || !event.target.matches('.node')) return;
    const to = nodeBeyond(drawing.nodes.indexOf(event.target), event.key);
    if (to !== undefined) drawing.nodes[to].focus();
    event.preventDefault();
  });
}
