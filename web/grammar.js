// Colours by a TextMate grammar, of which this takes what editors/vscode/rec.tmLanguage.json uses.

const STRIDE = 4000;          // characters between two stops
const LOOKAHEAD = 200;        // characters after a part, on which its colours may depend
const MOST_AT_ONCE = 60000;   // characters that are gone through at once

function rootOf(grammar) { return [{ patterns: grammar.patterns, end: null }]; }

// A text's parts that the grammar names, from its start on, where `stack` is what is open: where each begins and ends,
// and its name. `stop` gets each offset at which one can go on later, and what is open there.
function namedParts(grammar, text, stack = rootOf(grammar), stop = () => {}) {
  const parts = [], found = new Map();
  let at = 0;

  // The next place where an expression matches; each is searched for once until that is passed.
  function next(source) {
    const known = found.get(source);
    if (known && (known.match === null || known.match.index >= at)) return known.match;
    const search = known ? known.search : new RegExp(source, 'gm');
    search.lastIndex = at;
    const match = search.exec(text);
    found.set(source, { search, match });
    return match;
  }

  function rulesOf(patterns) {
    return patterns.flatMap((it) => {
      if (!it.include) return it.match || it.begin ? [it] : rulesOf(it.patterns);
      const rule = grammar.repository[it.include.slice(1)];
      return rule.match || rule.begin ? [rule] : rulesOf(rule.patterns);
    });
  }

  // The first match of what may come, and of several at one place that which stands first.
  function first(rules, end) {
    let best = end === null ? null : { match: next(end), rule: null };
    if (best && !best.match) best = null;
    for (const rule of rules) {
      const match = next(rule.match || rule.begin);
      if (match && (!best || match.index < best.match.index)) best = { match, rule };
    }
    return best;
  }

  function name(from, to, scope) {
    if (scope && to > from) parts.push({ from, to, name: scope.replace(/\.rec$/, '').replace(/\./g, '-') });
  }

  while (at < text.length) {
    const top = stack[stack.length - 1];
    top.rules = top.rules || rulesOf(top.patterns);
    const best = first(top.rules, top.end);
    if (!best) break;
    const { match, rule } = best, to = match.index + match[0].length;
    const captures = rule ? rule.beginCaptures : top.endCaptures;
    name(match.index, to, rule && rule.match ? rule.name : match[1] && captures && captures['1'].name);
    if (!rule) stack.pop();
    else if (rule.begin) stack.push({ patterns: rule.patterns, end: rule.end, endCaptures: rule.endCaptures });
    at = to;
    stop(at, stack);
  }
  return parts;
}

// The colours of a text that changes. Stops are offsets at which what is open is known.
class Colours {
  constructor(grammar) {
    this.grammar = grammar;
    this.stops = [{ at: 0, stack: rootOf(grammar) }];
  }

  // The text has changed from an offset on.
  change(at) {
    while (this.stops.length > 1 && this.stops.at(-1).at > at - LOOKAHEAD) this.stops.pop();
  }

  stopBefore(at) {
    let i = this.stops.length - 1;
    while (this.stops[i].at > at) i -= 1;
    return this.stops[i];
  }

  // Whether the colours at an offset are known at once; else goes on a little towards them.
  reaches(text, at) {
    const { at: from } = this.stops.at(-1);
    if (at - from <= MOST_AT_ONCE) return true;
    this.partsFrom(text, this.stops.at(-1), from + MOST_AT_ONCE);
    return this.stops.at(-1).at === from;
  }

  // The named parts between two offsets.
  partsIn(text, from, to) {
    return this.partsFrom(text, this.stopBefore(from), to).filter((it) => it.to > from);
  }

  partsFrom(text, { at, stack }, to) {
    const part = text.slice(at, to + LOOKAHEAD), last = this.stops.at(-1);
    let known = last.at;
    const parts = namedParts(this.grammar, part, [...stack], (end, open) => {
      const stop = at + end;
      if (stop < known + STRIDE || stop > to) return;
      this.stops.push({ at: stop, stack: [...open] });
      known = stop;
    });
    return parts.map((it) => ({ from: it.from + at, to: it.to + at, name: it.name })).filter((it) => it.from < to);
  }
}

if (typeof module !== 'undefined') module.exports.namedParts = namedParts;
