// Tries the scripts of web/ that need no browser, for tests/web.py: node web_scripts.js
'use strict';
const assert = require('assert');
const fs = require('fs');
const load = require('./web_load.js');
const { readGraph, withoutLists, firstNodes, layersOf, layOut, SIZES } = load(['graph'],
  ['readGraph', 'withoutLists', 'firstNodes', 'layersOf', 'layOut', 'SIZES']);
const { readTrace, placeOfRedex } = load(['steps'], ['readTrace', 'placeOfRedex']);
const { Rows, Edits, changeBetween } = load(['rows'], ['Rows', 'Edits', 'changeBetween']);
const { Colours, namedParts } = load(['grammar'], ['Colours', 'namedParts']);
const { pairAt, SPEC_BRACKETS, TERM_BRACKETS } = load(['brackets'], ['pairAt', 'SPEC_BRACKETS', 'TERM_BRACKETS']);
const { completionsOf, namesIn, sectionAt } = load(['complete'], ['completionsOf', 'namesIn', 'sectionAt']);
const { placesOf } = load(['find'], ['placesOf']);
const { numberWithin } = load(['limits'], ['numberWithin']);
const { usesOf, useAt, usesOfSame, refusedName, IDENTIFIER } = load(['places', 'rows', 'spec', 'names', 'uses'],
  ['usesOf', 'useAt', 'usesOfSame', 'refusedName', 'IDENTIFIER']);

// f(a,a): the list of the arguments has two cells; both have the head a, whose arguments are the end of the list too
const SHARED = `digraph term {
  node [shape=box, fontname="monospace"];
  n0 [label="f"];
  n0 -> n1 [label="args"];
  n1 [label="."];
  n1 -> n2 [label="head"];
  n1 -> n3 [label="tail"];
  n2 [label="a"];
  n2 -> n4 [label="args"];
  n3 [label="."];
  n3 -> n2 [label="head"];
  n3 -> n4 [label="tail"];
  n4 [label="[]"];
}
`;

// addition: plus(s(z),s(z)), by the rules in the lines 12 and 11; a term on which no rule fires; one above the limit;
// and one of which the first firing alone was asked for
const SHORT = `12:3: plus(s(z),s(z)) -> s(plus(z,s(z)))\t1
11:3: plus(z,s(z)) -> s(z)\t2
s(s(z))\t2
z{note(1)}\t0
12:3: plus(s(z),z) -> s(plus(z,z))\t1
!limit 1
11:3: plus(z,z) -> z\t1
... 12,345 more
z\t12346
`;
const LONG = `0:0: plus(s(z),s(z))
12:3: s(plus(z,s(z)))\t1
11:3: s(s(z))\t2
s(s(z))\t2
0:0: z
z{note(1)}\t0
0:0: plus(s(z),z)
12:3: s(plus(z,z))\t1
!limit 1
0:0: f(plus(z,z))
11:3: f(z)\t1
... 12,345 more
z\t12346
`;

// Numbers from 0 on that follow each other at random, but always in the same way.
function chances(seed) {
  let state = seed;
  return (below) => {
    state = (Math.imul(state, 1103515245) + 12345) >>> 0;
    return (state >>> 8) % below;
  };
}

// A graph in which each node but the first is named by some before it, and what a list ends with by many.
function graphOf(chance, count) {
  const nodes = [...Array(count).keys()].map((i) => ({ label: 'x'.repeat(1 + chance(30)) + i }));
  const edges = [];
  for (let to = 1; to < count; to++) {
    for (let i = 0; i <= chance(3); i++) edges.push({ from: chance(to), to, label: 'head' });
    if (chance(2) && to < count - 1) edges.push({ from: to, to: count - 1, label: 'tail' });
  }
  return { nodes, edges, rest: 0 };
}

function boxOf({ x, y, width }) { return { left: x - width / 2, right: x + width / 2, top: y, bottom: y + SIZES.row }; }

function overlap(one, other) {
  return one.left < other.right && other.left < one.right && one.top < other.bottom && other.top < one.bottom;
}

// Whether a line that goes straight down touches a box, but at its upper or lower side.
function runsInto([x, top], [, bottom], box) {
  return box.left < x && x < box.right && top < box.bottom && box.top < bottom;
}

// All edges go down from their node to the other one, a layer at a time, and no box is in the way of a box or an edge.
function isLaidOut(graph) {
  const { nodes, edges, width, height } = layOut(graph), boxes = nodes.map(boxOf);
  boxes.forEach((box, i) => {
    assert(box.left >= 0 && box.right <= width && box.top >= 0 && box.bottom <= height, `${i} is within the picture`);
    for (let k = i + 1; k < boxes.length; k++) assert(!overlap(box, boxes[k]), `${i} and ${k} are apart`);
  });
  const above = nodes.map(() => -1);
  for (const { from, to } of edges) above[to] = Math.max(above[to], nodes[from].layer);
  assert.deepStrictEqual(nodes.map((it) => it.layer), above.map((it) => it + 1));
  for (const { from, to, points } of edges) {
    assert(points.every(([x, y]) => x > 0 && x < width && y > 0 && y < height), 'it is within the picture');
    const first = points[0], last = points[points.length - 1], begin = boxes[from];
    assert(nodes[to].layer > nodes[from].layer, `${from} is above ${to}`);
    assert(first[1] === begin.bottom && begin.left < first[0] && first[0] < begin.right, `one leaves ${from}`);
    assert(last[1] === boxes[to].top && last[0] === nodes[to].x, `one comes to ${to}`);
    assert.strictEqual(points.length, 2 * (nodes[to].layer - nodes[from].layer));
    for (let i = 1; i < points.length; i++) assert(points[i][1] > points[i - 1][1], 'it goes down');
    for (let i = 1; i + 1 < points.length; i += 2) {
      assert(points[i][0] === points[i + 1][0], 'it goes straight down where nodes are');
      boxes.forEach((box, k) => assert(!runsInto(points[i], points[i + 1], box), `${k} is not in the way`));
    }
  }
}

function graphs() {
  const graph = readGraph(SHARED);
  assert.deepStrictEqual(graph.nodes.map((it) => it.label), ['f', '.', 'a', '.', '[]']);
  assert.deepStrictEqual(graph.edges.map(({ from, to, label }) => `${from} ${label} ${to}`),
    ['0 args 1', '1 head 2', '1 tail 3', '2 args 4', '3 head 2', '3 tail 4']);
  assert.deepStrictEqual(layersOf(graph), [0, 1, 3, 2, 4]);
  isLaidOut(graph);
  // both edges to a, of which one passes a layer, come to the middle of a's upper side
  const ends = layOut(graph).edges.filter((it) => it.to === 2).map((it) => it.points.length);
  assert.deepStrictEqual(ends, [4, 2]);
}

function labels() {
  const first = '  n0 [label="\\"a\\\\\\"b\\\\134\\""];', second = '  n1 [label="x&amp;amp;"];';
  const { nodes, rest } = readGraph(`${first}\n${second}\n  rest [label="12 more", style=dashed];\n`);
  assert.deepStrictEqual(nodes.map((it) => it.label), ['"a\\"b\\134"', 'x&amp;']);
  assert.strictEqual(rest, 12);
  const [long] = layOut({ nodes: [{ label: 'y'.repeat(25) }], edges: [] }).nodes;
  assert.strictEqual(long.label, `${'y'.repeat(23)}…`);
}

function trunks() {
  // 0 leads to 1, that to 2, that to 3, and each of them to 4 too: below the second layer there is one trunk
  const edge = (from, to) => ({ from, to, label: 'head' });
  const edges = [edge(0, 1), edge(1, 2), edge(2, 3), edge(0, 4), edge(1, 4), edge(2, 4), edge(3, 4)];
  const nodes = ['a', 'b', 'c', 'd', 'e'].map((label) => ({ label }));
  assert.deepStrictEqual(layersOf({ nodes, edges }), [0, 1, 2, 3, 4]);
  const ways = layOut({ nodes, edges }).edges.filter((it) => it.to === 4).map((it) => it.points);
  assert.deepStrictEqual(ways[0].slice(3), ways[1].slice(1));
  assert.deepStrictEqual(ways[1].slice(3), ways[2].slice(1));
  assert.throws(() => layersOf({ nodes, edges: [...edges, edge(4, 2)] }), /leads back/);
}

function randomGraphs() {
  for (let seed = 1; seed <= 60; seed++) {
    const chance = chances(seed);
    isLaidOut(graphOf(chance, 1 + chance(seed * 5)));
  }
}

function traces() {
  const [first, second, third, fourth, ...others] = readTrace(SHORT, LONG);
  assert.deepStrictEqual(others, []);
  assert.deepStrictEqual([first, second, third].map((it) => it.end), ['s(s(z))\t2', 'z{note(1)}\t0', '!limit 1']);
  assert.deepStrictEqual([first, second, third].map((it) => it.more), ['0', '0', '0']);
  assert.deepStrictEqual([fourth.more, fourth.end, fourth.firings.length], ['12,345', 'z\t12346', 1]);
  assert.deepStrictEqual(placeOfRedex(fourth.firings[0]), { from: 2, to: 11, until: 3 });
  assert.deepStrictEqual(second.firings, []);
  assert.deepStrictEqual(first.firings, [
    { line: 12, column: 3, steps: 1n, redex: 'plus(s(z),s(z))', contractum: 's(plus(z,s(z)))',
      before: 'plus(s(z),s(z))', after: 's(plus(z,s(z)))' },
    { line: 11, column: 3, steps: 2n, redex: 'plus(z,s(z))', contractum: 's(z)',
      before: 's(plus(z,s(z)))', after: 's(s(z))' },
  ]);
  const [whole, part] = first.firings.map(placeOfRedex);
  assert.deepStrictEqual([whole, part], [{ from: 0, to: 15, until: 15 }, { from: 2, to: 14, until: 6 }]);
  assert.strictEqual(third.firings.length, 1);
  assert.deepStrictEqual(readTrace('', ''), []);
  const [uncounted] = readTrace('1:1: c -> d\nd\n', '0:0: c\n1:1: d\nd\n');
  assert.strictEqual(uncounted.firings[0].steps, null);
}

function places() {
  const at = (before, after, redex, contractum) => placeOfRedex({ before, after, redex, contractum });
  // of two equal parts the first fires
  assert.deepStrictEqual(at('f(g(c),c)', 'f(g(d1),c)', 'c', 'd1'), { from: 4, to: 5, until: 6 });
  // a name that only begins so is no such part, nor is one that has arguments
  assert.deepStrictEqual(at('f(c1,c(a),c)', 'f(c1,c(a),d)', 'c', 'd'), { from: 10, to: 11, until: 11 });
  // where it becomes itself, one sees by its own text alone where it stands
  assert.deepStrictEqual(at('f(bc,cb,c(a),c)', 'f(bc,cb,c(a),c)', 'c', 'c'), { from: 13, to: 14, until: 14 });
  assert.strictEqual(at('f(a)', 'f(b)', 'c', 'b'), null);
  assert.strictEqual(at('f(c)', 'f(e)', 'c', 'd'), null);
  // the whole terms are cut behind the redex, inside of it, and before it
  assert.deepStrictEqual(at('f(c,h(...', 'f(dd,h...', 'c', 'dd'), { from: 2, to: 3, until: 4 });
  assert.deepStrictEqual(at('f(g(a,b...', 'f(d,h(e)...', 'g(a,bb)', 'd'), { from: 2, to: 7, until: 3 });
  assert.strictEqual(at('f(h(e,...', 'f(h(e,...', 'c', 'd'), null);
  assert.strictEqual(at('f(g(g(...', 'f(g(g(...', 'g(z)', 'g(g(z))'), null);
  // what it becomes is cut, and with it the term after it; all four are cut
  assert.deepStrictEqual(at('f(c,h(e))', 'f(g(aaa...', 'c', 'g(aaaaa...'), { from: 2, to: 3, until: 7 });
  assert.deepStrictEqual(at('f(g(aaaa...', 'f(g(bbbb...', 'g(aaaaaa...', 'g(bbbbbb...'), { from: 2, to: 8, until: 8 });
}

// Terms alone: f(a,a); f([g],g), whose first argument is a list; and a placeholder of which not all is told.
function graphsWithoutLists() {
  const linked = (edges) => edges.map((it) => `${it.from}${it.label}${it.to}`).join(' ');
  const told = ({ nodes, edges }) => [nodes.map((it) => it.label).join(' '), linked(edges)];
  const edge = (from, label, to) => ({ from, to, label });
  assert.deepStrictEqual(told(withoutLists(readGraph(SHARED))), ['f a', '0argument1 0argument1']);
  const list = { nodes: ['f', '.', '.', '.', 'g', '[]'].map((label) => ({ label })), rest: 0, edges: [
    edge(0, 'args', 1), edge(1, 'head', 2), edge(1, 'tail', 3), edge(2, 'head', 4), edge(2, 'tail', 5),
    edge(3, 'head', 4), edge(3, 'tail', 5), edge(4, 'args', 5)] };
  assert.deepStrictEqual(told(withoutLists(list)), ['f […] g', '0argument1 0argument2 1element2']);
  const inner = { nodes: ['<>', '7', '.', '[]'].map((label) => ({ label })), rest: 2, edges: [
    edge(0, 'inner', 1), edge(0, 'annotations', 2), edge(2, 'head', 1)] };
  const made = withoutLists(inner);
  assert.deepStrictEqual(told(made), ['<> 7', '0inner1 0annotation1']);
  assert.strictEqual(made.isOpen, true);
  assert.deepStrictEqual(firstNodes(made, 1), { nodes: [{ label: '<>' }], edges: [], rest: 1, isOpen: true });
  for (let seed = 1; seed <= 20; seed++) isLaidOut(firstNodes(withoutLists(listsOf(chances(seed), 40)), 30));
}

// A graph of applications whose arguments are lists of later ones, each of two cells.
function listsOf(chance, count) {
  const nodes = [], edges = [], end = 3 * count;
  for (let i = 0; i < count; i++) {
    nodes.push({ label: `f${i}` }, { label: '.' }, { label: '.' });
    const later = () => 3 * (i + 1 + chance(Math.max(1, count - i - 1)));
    const [one, other] = i + 1 < count ? [later(), later()] : [end, end];
    edges.push({ from: 3 * i, to: i + 1 < count ? 3 * i + 1 : end, label: 'args' });
    if (i + 1 < count) {
      edges.push({ from: 3 * i + 1, to: one, label: 'head' }, { from: 3 * i + 1, to: 3 * i + 2, label: 'tail' });
      edges.push({ from: 3 * i + 2, to: other, label: 'head' }, { from: 3 * i + 2, to: end, label: 'tail' });
    }
  }
  nodes.push({ label: '[]' });
  return { nodes, edges, rest: 0 };
}

function someText(chance) {
  const piece = () => ['a', '\n', 'bcd', 'x'.repeat(chance(1300)), '\n\n'][chance(5)];
  return [...Array(chance(4))].map(piece).join('');
}

// Rows that are kept beside a text through random edits are those of the text.
function rows() {
  const chance = chances(7);
  for (let i = 0; i < 200; i++) {
    const text = new Rows(someText(chance) + someText(chance) + someText(chance));
    for (let k = 0; k < 20; k++) {
      const from = chance(text.length + 1), to = Math.min(text.length, from + chance(chance(3) ? 5 : 2000));
      const inserted = someText(chance), old = text.text, wanted = old.slice(0, from) + inserted + old.slice(to);
      const change = changeBetween(old, wanted, from + inserted.length);
      assert.strictEqual(old.slice(0, change.from) + change.inserted + old.slice(change.to), wanted);
      text.replace(from, to, inserted);
      areRows(text, wanted, chance(wanted.length + 1));
    }
  }
}

function areRows(text, wanted, at) {
  const fresh = new Rows(wanted), lines = wanted.slice(0, at).split('\n'), row = text.rowOf(at);
  assert.deepStrictEqual([text.text, text.starts, text.pieces], [wanted, fresh.starts, fresh.pieces]);
  assert.deepStrictEqual(text.placeOf(at), { line: lines.length, column: lines.at(-1).length + 1 });
  assert(text.starts[row] <= at && (row + 1 === text.rows || at < text.starts[row + 1]));
  const shown = text.starts.map((it, i) => (i && text.startsLine(i) ? '\n' : '') + text.text.slice(it, text.endOf(i)));
  assert.strictEqual(shown.join(''), wanted);
  assert(text.starts.every((it, i) => text.endOf(i) - it <= 500));
}

function edits() {
  const all = new Edits();
  const type = (from, inserted, time) => all.note({ from, removed: '', inserted, isTyped: true, time });
  for (const [i, it] of ['a', 'b', '\n', 'c'].entries()) type(i, it, i);
  assert.deepStrictEqual(all.done.map((it) => it.inserted), ['ab', '\nc']);
  type(4, 'd', 5000);
  assert.strictEqual(all.take(true).inserted, 'd');
  assert.strictEqual(all.take(true).inserted, '\nc');
  assert.strictEqual(all.take(false).inserted, '\nc');
  all.note({ from: 0, removed: 'x', inserted: '', time: 6000 });
  assert.deepStrictEqual([all.peek(false), all.done.length], [null, 3]);
}

// Colours of a part are those of the whole text, also after edits.
function colours() {
  const grammar = JSON.parse(fs.readFileSync(`${__dirname}/../editors/vscode/rec.tmLanguage.json`, 'utf8'));
  const chance = chances(3);
  const lines = ['  s : Nat -> Nat', '% a comment: SORTS', 'RULES', '  f(s(X),Y) -> s(X) if X -><- Y', 'VARS X Y : Nat',
    '  a :\n b', 'OPNS', ''];
  let text = [...Array(3000)].map(() => lines[chance(lines.length)]).join('\n');
  const known = new Colours(grammar);
  for (let i = 0; i < 12; i++) {
    const at = chance(text.length), from = chance(text.length), to = Math.min(text.length, from + chance(3000));
    text = text.slice(0, at) + lines[chance(lines.length)] + text.slice(at + chance(3));
    known.change(at);
    while (!known.reaches(text, from));
    const inside = (it) => it.from < to && it.to > from;
    assert.deepStrictEqual(known.partsIn(text, from, to), namedParts(grammar, text).filter(inside));
  }
}

function brackets() {
  const at = (text, caret, of = SPEC_BRACKETS) => pairAt(text, caret, of)?.places.join(' ') ?? null;
  assert.strictEqual(at('f(a,g(b))', 2), '1 8');
  assert.strictEqual(at('f(a,g(b))', 8), '7 5');
  assert.strictEqual(at('f(a,g(b))', 9), '8 1');
  assert.strictEqual(at('f(a % )\n)', 1), '1 8');
  assert.strictEqual(at('f(a', 2), '1');
  assert.strictEqual(at('a -><- b', 3), null);
  assert.strictEqual(at('[f("(",<int>){a}]', 1, TERM_BRACKETS), '0 16');
  assert.strictEqual(at('[f("(",<int>){a}]', 8, TERM_BRACKETS), '7 11');
  assert.strictEqual(at('[f("(",<int>){a}]', 3, TERM_BRACKETS), '2 12');
  assert.strictEqual(pairAt('f(]', 2, TERM_BRACKETS).isPair, false);
}

function completions() {
  const names = namesIn(['Nat\tsort\t', 'plus\toperator\t: Nat Nat -> Nat', 'plain\tconstructor\t: -> Nat',
    'Pl\tvariable\t: Nat'].join('\n'));
  const found = (word, kinds) => completionsOf(names, word, kinds).map((it) => it.name).join(' ');
  assert.strictEqual(found('pl', ['operator']), 'plus plain Pl');
  assert.strictEqual(found('pl', ['constructor']), 'plain plus Pl');
  assert.strictEqual(found('plus'), '');
  assert.strictEqual(found('EV'), 'EVAL');
  assert.strictEqual(sectionAt('REC-SPEC A SORTS B % CONS\nVARS X', 33), 'VARS');
  assert.strictEqual(sectionAt('REC-SPEC A', 5), null);
  assert.deepStrictEqual(placesOf('abababa', 'aba'), [0, 4]);
  assert.deepStrictEqual(placesOf('abc', ''), []);
}

function limits() {
  const range = { least: 1n, most: 1n << 30n };
  const numbers = ['1', ' 1,000 ', '1_073_741_824', '007'].map((it) => numberWithin(it, range));
  assert.deepStrictEqual(numbers, [1n, 1000n, 1n << 30n, 7n]);
  const wrong = ['', '0', '-1', '1e3', '1.5', 'x', '1073741825', '9'.repeat(50)];
  assert.deepStrictEqual(wrong.map((it) => numberWithin(it, range)), wrong.map(() => null));
}

// A sort, a constructor and a variable of one name each, declared once more or not at all; the title A names nothing.
const SAME_NAMES = `REC-SPEC A SORTS A B A % A
CONS a : -> A A : A B -> C
OPNS a : -> B f : A -> A
VARS X Y : A X a : B
RULES f(X) -> A(X,q) if Y -><- a and-if f(X) ->/<- X EVAL f(X) END-SPEC`;

function uses() {
  // the number of the word that declares each one, or -1
  const numbers = (text) => usesOf(text).map((it, _, all) => all.findIndex(({ from }) => from === it.declared?.from));
  const told = (text) => usesOf(text).map(({ name, kind, of }) => [kind[0], name, of].join(' ').trim());
  assert.deepStrictEqual(numbers(SAME_NAMES), [0, 1, 0, 3, 0, 5, 0, 1, -1, 3, 1, 11, 0, 0, 14, 15, 0, 14, 3, 1,
    11, 14, 5, 14, -1, 15, 3, 11, 14, 14, 11, 14]);
  assert.deepStrictEqual(told(SAME_NAMES).slice(0, 20), ['s A', 's B', 's A', 'c a -> A', 's A', 'c A A B -> C', 's A',
    's B', 's C', 'c a -> A', 's B', 'o f A -> A', 's A', 's A', 'v X A', 'v Y A', 's A', 'v X A', 'c a -> A', 's B']);
  assert.deepStrictEqual(told(SAME_NAMES).slice(20), ['o f A -> A', 'v X A', 'c A A B -> C', 'v X A', 'u q', 'v Y A',
    'c a -> A', 'o f A -> A', 'v X A', 'v X A', 'o f A -> A', 'v X A']);
  assert.deepStrictEqual(told('REC-SPEC A SORTS A VARS X Y : A Z : A END-SPEC'),
    ['s A', 'v X A', 'v Y A', 's A', 'v Z A', 's A']);
  assert.strictEqual(usesOf('REC-SPEC A SORTS A'), null);
  assert.strictEqual(usesOf('REC-SPEC A SORTS A : END-SPEC'), null);
  assert.deepStrictEqual(usesOf('REC-SPEC A END-SPEC'), []);
  const all = usesOf(SAME_NAMES), of = (word, nth = 0) => all.filter((it) => it.name === word)[nth];
  const places = (use) => usesOfSame(all, use).map((it) => SAME_NAMES.slice(it.from, it.to)).join('');
  assert.deepStrictEqual([of('A'), of('A', 3), of('a'), of('X'), of('q')].map(places), ['AAAAAAA', 'AA', 'aaaa', 'XXXXXXX', '']);
  const { from, to } = of('f'), title = SAME_NAMES.indexOf('A');
  const named = [from - 2, from - 1, from, to, to + 1, title, 0].map((it) => useAt(all, it)?.name);
  assert.deepStrictEqual(named, ['B', 'B', 'f', 'f', undefined, undefined, undefined]);
  refusals(all, of);
}

function refusals(all, of) {
  const refused = (word, use) => refusedName(all, use, word);
  for (const it of ['', 'a b', 'a-', '-a', "'a", 'a--b', 'é', 'f(']) {
    assert.strictEqual(refused(it, of('f')), "A name consists of ASCII letters, digits, _, ' and single -.");
    assert.strictEqual(IDENTIFIER.test(it), false);
  }
  for (const it of ['g', '0', "_'", 'a-b', 'a-1', 'and-ifs', 'B', 'f']) assert.strictEqual(refused(it, of('f')), null);
  for (const it of ['EVAL', 'END-SPEC', 'and-if', 'if']) {
    assert.strictEqual(refused(it, of('f')), `${it} is a reserved word.`);
  }
  for (const it of ['a', 'A', 'X']) assert.strictEqual(refused(it, of('f')), `${it} is already declared.`);
  assert.strictEqual(refused('q', of('f')), 'q is already in the text, without a declaration.');
  assert.strictEqual(refused('f', of('B')), null);
  assert.strictEqual(refused('B', of('A')), 'B is already declared.');
  assert.strictEqual(refused('C', of('A')), 'C is already in the text, without a declaration.');
}

const ALL = [graphs, labels, trunks, randomGraphs, graphsWithoutLists, traces, places, rows, edits, colours, brackets,
  completions, limits, uses];
for (const it of ALL) it();
console.log('all as wanted');
