'use strict';
// Calls of the module: texts in, bytes out. For the page's workers, and for node.

// The sizes and places of what a call is given and what it tells, in bytes.
const OPTIONS = { size: 24, steps: 0, cells: 8, memo: 12, reclaim: 16, count: 20 };
const TRACE_OPTIONS = { size: 32, width: OPTIONS.size, whole: OPTIONS.size + 4 };
const TOLD = { size: 16, length: 0, at: 8, hasPlace: 12 };
const USUAL = { steps: 1000000n, cells: 16777216, memo: 65536, reclaim: 262144, count: false };
const USUAL_TRACE = { ...USUAL, width: 1 << 30, whole: false };
// What the module answers, beside 0, 1 for a refusal, and 2 where the room is too short.
const FAULTS = { 3: 'out of memory', 4: 'out of cells' };
const FIRST_ROOM = 1 << 24;
// What a profile counts: the rules, and what was done; and of each rule how often it matched, applied and failed.
const COUNTS = { totals: 7, ofRule: 3 };

// The calls of an instance: what a run of this name over these texts comes to.
function callsOf(instance) {
  const { exports } = instance;
  const view = () => new DataView(exports.memory.buffer);
  const bytes = () => new Uint8Array(exports.memory.buffer);

  function roomFor(size) {
    const at = exports.room(BigInt(Math.max(size, 1)));
    if (at === 0n) throw new RangeError(FAULTS[3]);
    return at;
  }

  function put(text) {
    const at = roomFor(text.length);
    bytes().set(text, Number(at));
    return [at, BigInt(text.length)];
  }

  function putLimits(from, options) {
    const to = view();
    to.setBigUint64(from + OPTIONS.steps, options.steps, true);
    for (const name of ['cells', 'memo', 'reclaim']) to.setUint32(from + OPTIONS[name], options[name], true);
    to.setUint8(from + OPTIONS.count, options.count ? 1 : 0);
  }

  function putOptions(options) {
    const at = roomFor(OPTIONS.size);
    putLimits(Number(at), { ...USUAL, ...options });
    return [at];
  }

  function putTraceOptions(options) {
    const at = roomFor(TRACE_OPTIONS.size), from = Number(at), all = { ...USUAL_TRACE, ...options };
    putLimits(from, all);
    view().setUint32(from + TRACE_OPTIONS.width, all.width, true);
    view().setUint8(from + TRACE_OPTIONS.whole, all.whole ? 1 : 0);
    return [at];
  }

  // Room for what a profile counts: totals, and three numbers for each rule.
  function putProfile(options) {
    const size = COUNTS.totals + COUNTS.ofRule * options.rules, at = roomFor(8 * size);
    bytes().fill(0, Number(at), Number(at) + 8 * size);
    return [...putOptions(options), at, BigInt(size)];
  }

  // what follows the texts of a run
  const PUTS = { eval: putOptions, eval_terms: putOptions, trace: putTraceOptions, trace_terms: putTraceOptions };
  PUTS.share_dot = ({ nodes }) => [nodes];
  PUTS.profile = putProfile;

  function told(at) {
    const from = Number(at), of = view();
    const hasPlace = of.getUint8(from + TOLD.hasPlace) !== 0;
    return {
      length: Number(of.getBigUint64(from + TOLD.length, true)),
      at: hasPlace ? of.getUint32(from + TOLD.at, true) : null,
    };
  }

  function callWithin(room, name, given) {
    const out = roomFor(room), toldAt = roomFor(TOLD.size);
    bytes().fill(0, Number(toldAt), Number(toldAt) + TOLD.size);
    const number = exports['recw_' + name](...given, out, BigInt(room), toldAt);
    return { number, out: Number(out), ...told(toldAt) };
  }

  function answer({ number, out, length, at }) {
    const fault = FAULTS[number] || null;
    return { status: fault ? 3 : number, fault, at, out: fault ? new Uint8Array(0) : bytes().slice(out, out + length) };
  }

  function countsAt(at, size) { return [...new BigUint64Array(exports.memory.buffer, at, size)]; }

  return function call(name, texts, options) {
    try {
      const given = texts.flatMap(put).concat(PUTS[name] ? PUTS[name](options) : []);
      const first = callWithin(FIRST_ROOM, name, given);
      const found = answer(first.number === 2 ? callWithin(first.length, name, given) : first);
      return name === 'profile' ? { ...found, counts: countsAt(...given.slice(-2).map(Number)) } : found;
    } catch (error) {
      if (error instanceof RangeError) return { status: 3, fault: FAULTS[3], at: null, out: new Uint8Array(0) };
      throw error;
    }
  };
}

// What the program says on standard error of the same end.
function toldOf({ fault, at, out }) {
  if (fault) return `recw: ${fault}\n`;
  if (at === null) return '';
  return `recw: ${new TextDecoder().decode(out).slice(1, -1)} at byte ${at}\n`;
}

if (typeof module !== 'undefined') module.exports = { callsOf, toldOf };
