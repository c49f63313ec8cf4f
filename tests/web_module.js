// Answers, for tests/web.py, runs by the module that stands in the page:
//
//     node web_module.js PAGE
//
// Each line of the standard input is {name, texts, options}, the texts in base64; each is answered by a line with the
// status, what the program says on standard error, and the output in base64. Each run has an instance of its own. There
// are other names than those of runs:
//
//     places      the texts of a trace, without whole terms and with them: how many redexes are found in the whole
//                 terms, and how many are not though these are not cut
//     explain     an error, and the texts by their names and not in base64: what the program explains of it
//     exports     the names of what the module has, or null if its memory has 64 bits and this node supports none such
'use strict';
const fs = require('fs');
const readline = require('readline');
const zlib = require('zlib');
const page = fs.readFileSync(process.argv[2], 'utf8');
const load = require('./web_load.js');
const COMMON = ['run', 'places', 'rows', 'lists', 'steps', 'graph', 'spec', 'aterm', 'names', 'uses', 'hint', 'explain',
  'jobs'];
const { callsOf, toldOf, readTrace, placeOfRedex, explainError, lineAndColumn, rulesOf, profileOf, specToken } = load(
  COMMON, ['callsOf', 'toldOf', 'readTrace', 'placeOfRedex', 'explainError', 'lineAndColumn', 'rulesOf', 'profileOf',
    'specToken']);
const { detailsOf } = load(['errors'], ['detailsOf']);
const data = JSON.parse(/<script type="application\/json" id="data">([^]*?)<\/script>/.exec(page)[1]);
global.data = data;

const packed = /<script type="application\/octet-stream" id="module">([^<]*)</.exec(page)[1];
const code = zlib.gunzipSync(Buffer.from(packed, 'base64'));
// no more than a memory of 64 bits, of a page at least
const WIDE = Uint8Array.of(0, 0x61, 0x73, 0x6d, 1, 0, 0, 0, 5, 3, 1, 4, 1);
const isTaken = WebAssembly.validate(code) || WebAssembly.validate(WIDE);
const module_ = isTaken ? new WebAssembly.Module(code) : null;

function placesIn(texts) {
  const [short, long] = texts.map((it) => Buffer.from(it, 'base64').toString());
  const firings = readTrace(short, long).flatMap((it) => it.firings);
  const lost = firings.filter((it) => !placeOfRedex(it) && !it.before.endsWith('...'));
  return { found: firings.filter(placeOfRedex).length, lost: lost.length };
}

// Codes that the program explains without a location, and how many of the notes it has.
const UNPLACED = { M1: 1, M2: 1 };

// What the program explains, in its lines.
function explained({ error, texts }) {
  const told = explainError(error, texts), { code, from, notes, hint } = told, text = texts[error.source];
  const place = (at) => { const { line, column } = lineAndColumn(text, at); return `${line}:${column}: `; };
  const isPlaced = from !== null && !(code in UNPLACED);
  const details = detailsOf({ ...told, notes: isPlaced ? notes : notes.slice(0, UNPLACED[code]), found: null });
  const first = `${isPlaced ? place(from) : ''}${code}: ${data.refusals[code]}${details ? `; ${details}` : ''}`;
  return hint ? [first, `${place(hint.from)}${hint.words}`] : [first];
}

// The most bytes that a profile shows of a rule.
const MOST_OF_RULE = 60;

// The text of the rule at an offset, on one line: it ends before the next rule, section or END-SPEC.
function ruleText(spec, from, next) {
  const isInside = (it) => it.from !== next && !['Eval', 'EndSpec', 'End'].includes(it.kind);
  let to = from;
  for (let it = specToken(spec, from); isInside(it); it = specToken(spec, to)) to = it.to;
  const text = spec.slice(from, to).replace(/%[^\n]*/g, ' ').replace(/[ \t\n\r]+/g, ' ');
  return text.length > MOST_OF_RULE ? `${text.slice(0, MOST_OF_RULE - 3)}...` : text;
}

// The lines that the program writes of a profile: the rules with the most matches first.
function profiled(counts, spec) {
  const { rules, totals } = profileOf(counts, rulesOf(spec)), { steps, hits, saved, made, most, collections } = totals;
  const matches = rules.reduce((sum, it) => sum + it.matched, 0);
  const texts = new Map(rules.map((it, i) => [it, ruleText(spec, it.from, rules[i + 1]?.from)]));
  const of = (it) => `${it.line}:${it.column}: ${it.matched} matched, ${it.applied} applied, ${it.failed} failed\t`
    + texts.get(it);
  return [...[...rules].sort((a, b) => b.matched - a.matched).map(of),
    `steps: ${steps} spent, ${matches} matched, ${saved} saved by ${hits} memo hits`,
    `cells: ${made} made, ${most} in use at most`, `garbage collections: ${collections}`].map((it) => `profile: ${it}\n`).join('');
}

function answer({ name, texts, options, error }) {
  if (name === 'explain') return explained({ error, texts });
  if (name === 'exports') return module_ && WebAssembly.Module.exports(module_).map((it) => it.name);
  if (name === 'places') return placesIn(texts);
  const call = callsOf(new WebAssembly.Instance(module_, {}));
  const spec = Buffer.from(texts[0], 'base64').toString();
  const more = name === 'profile' ? { rules: rulesOf(spec).length } : {};
  const given = options && 'steps' in options ? { ...options, ...more, steps: BigInt(options.steps) } : options;
  const begin = performance.now();
  const found = call(name, texts.map((it) => new Uint8Array(Buffer.from(it, 'base64'))), given);
  const milliseconds = performance.now() - begin;
  const profile = found.counts && found.counts.some((it) => it > 0n) ? profiled(found.counts, spec) : '';
  const out = Buffer.from(found.out).toString('base64');
  return { status: found.status, told: profile + toldOf(found), out, milliseconds };
}

readline.createInterface({ input: process.stdin }).on('line', (line) => {
  process.stdout.write(`${JSON.stringify(answer(JSON.parse(line)))}\n`);
});
