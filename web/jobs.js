// What a worker does: runs of the module, and what is told of them, so that the page only has to draw.

const MOST_LINES = 1000;        // of values that are shown
const MOST_CHARACTERS = 5000;   // of one value
const MOST_FIRINGS = 5000;      // rewrites of all terms together
const LEAST_FIRINGS = 20;       // that may be shown of each term
const FIRING_WIDTH = 2000;      // characters of a term
const MOST_NODES = 300;         // of a graph that is drawn
const CELLS_PER_NODE = 4;       // that are asked for, if those of lists are not drawn
const MOST_FOUND = 500;         // messages of a check
const FOUND_LINE = /^SPEC:(\d+):(\d+): (error|warning): (.*) \[(\w+)\]$/;

function encoded(text) { return new TextEncoder().encode(text); }

function decoded(bytes) { return new TextDecoder('utf-8', { ignoreBOM: true }).decode(bytes); }

// The text of a value as it is shown, and how many characters it has.
function cutText(text) {
  if (text.length <= MOST_CHARACTERS) return { text, more: 0 };
  return { text: text.slice(0, MOST_CHARACTERS), more: text.length };
}

// The run of an evaluation or a trace.
function runOf(call, name, { spec, terms }, options) {
  const texts = terms === null ? [spec] : [spec, terms];
  return call(terms === null ? name : `${name}_terms`, texts.map(encoded), options);
}

// An answer that is no output: what ended the run, or an error of a text.
function failureOf({ status, fault, at, out }, texts) {
  if (fault) return { fault };
  if (status === 0) return null;
  const [, source, code] = /^!(\w+) (\w+)/.exec(decoded(out));
  return { error: explainError({ source, code, at }, texts) };
}

// The EVAL terms and the input terms, as they are written.
function termsAsked({ spec, terms }) {
  return termsOf(spec).concat(terms === null ? [] : elementsOf(terms));
}

// The line of a term that needs more steps, or whose value has more bytes.
const LIMIT_LINE = /^!(limit|bytes) (\d+)/;

// One line of an evaluation beside its term.
function rowOf(line, asked) {
  const [, word, most] = LIMIT_LINE.exec(line) || [], [value, steps = null] = line.split('\t');
  const limit = word ? { most: Number(most), unit: word === 'bytes' ? 'byte' : 'step' } : null;
  return { asked: cutText(asked || ''), value: limit ? null : cutText(value), limit, steps };
}

const JOBS = {
  // The values of all terms, of which some are shown; and what the specification declares.
  evaluate(call, { texts, options }) {
    const answer = runOf(call, 'eval', texts, options), failure = failureOf(answer, texts);
    if (failure) return { ...failure, names: namesOf(texts.spec) };
    const lines = decoded(answer.out).split('\n').slice(0, -1), asked = termsAsked(texts);
    return {
      out: answer.out,
      count: lines.length,
      limits: lines.filter((it) => LIMIT_LINE.test(it)).length,
      rows: lines.slice(0, MOST_LINES).map((it, i) => rowOf(it, asked[i])),
      names: namesOf(texts.spec),
    };
  },

  // Runs on annotated terms and patterns.
  term(call, { texts }) {
    const { term, pattern, args } = texts;
    const runs = { share: [term], match: [pattern, term], make: [pattern, args] };
    return Object.fromEntries(Object.entries(runs).map(([name, given]) => {
      const answer = call(name, given.map(encoded)), failure = failureOf(answer, texts);
      return [name, failure || { text: decoded(answer.out) }];
    }));
  },

  // The rewrites of all terms, below a limit of steps so that there are not too many.
  trace(call, { texts, options }) {
    const asked = termsAsked(texts).map((it) => cutText(it).text);
    const most = BigInt(Math.max(LEAST_FIRINGS, Math.floor(MOST_FIRINGS / Math.max(1, asked.length))));
    const steps = options.steps < most ? options.steps : most;
    const limited = { ...options, steps, count: true, width: FIRING_WIDTH };
    const answers = [false, true].map((whole) => runOf(call, 'trace', texts, { ...limited, whole }));
    const [failure] = answers.map((it) => failureOf(it, texts)).filter((it) => it);
    if (failure) return failure;
    const [short, long] = answers.map(({ out }) => decoded(out));
    return { asked, limit: steps, isLimit: steps === options.steps, short, terms: readTrace(short, long) };
  },

  // The graph of a term, laid out; of applications alone, if asked so.
  graph(call, { term, isOfTerms }) {
    const nodes = isOfTerms ? MOST_NODES * CELLS_PER_NODE : MOST_NODES;
    const answer = call('share_dot', [encoded(term)], { nodes }), failure = failureOf(answer, { term });
    if (failure) return failure;
    const cells = readGraph(decoded(answer.out));
    const graph = isOfTerms ? firstNodes(withoutLists(cells), MOST_NODES) : cells;
    return { graph, places: layOut(graph) };
  },

  // What a check finds, with its places in the text.
  check(call, { texts: { spec } }) {
    const answer = call('check', [encoded('SPEC'), encoded(spec)]);
    if (answer.fault) return { fault: answer.fault };
    const lines = decoded(answer.out).split('\n').slice(0, -1), rows = new Rows(spec);
    return { count: lines.length, found: lines.slice(0, MOST_FOUND).map((it) => foundOf(it, rows)) };
  },

  // What the word at an offset names, where the same is named, and why that cannot have the name that it is to have.
  uses(call, { text, at, word }) {
    const uses = usesOf(text), use = uses && useAt(uses, at);
    if (!use) return { use: null, isOutside: !uses };
    const places = usesOfSame(uses, use).map((it) => it.from);
    return { use, places, refused: word === null ? null : refusedName(uses, use, word) };
  },

  // How often each rule was used, and what the evaluation took; nothing of that if it could not begin.
  profile(call, { texts, options }) {
    const { spec, terms } = texts, rules = rulesOf(spec), given = [spec, terms || '[]'].map(encoded);
    const answer = call('profile', given, { ...options, rules: rules.length }), failure = failureOf(answer, texts);
    // what a run took that stopped is told too
    const isWritten = !failure || (failure.fault && answer.counts && answer.counts.some((it) => it > 0n));
    return isWritten ? { ...failure, ...profileOf(answer.counts, rules) } : failure;
  },
};

// What a line of a check tells: a location, a severity, words, a code, and the part of the text.
function foundOf(line, rows) {
  const [, row, column, severity, words, rule] = FOUND_LINE.exec(line);
  const from = characterOf(rows, Number(row), Number(column)), kind = severity === 'warning' ? 'warn' : 'bad';
  return { line: Number(row), column: Number(column), rule, words, kind, ...wordAt(rows.text, from) };
}

// The character of a text at a line and a column, which counts bytes.
function characterOf(rows, line, column) {
  const start = rows.starts[rows.rowOfLine(line)], end = rows.text.indexOf('\n', start);
  const text = rows.text.slice(start, end < 0 ? rows.length : end);
  return start + (/[^\x00-\x7f]/.test(text) ? characterAt(text, column - 1) : column - 1);
}

// The names that a specification declares, each `{name, kind, of}`, in lines.
function namesOf(spec) {
  const { sorts, symbols, variables } = readSpec(spec), names = (all) => all.map((it) => it.name).join(' ');
  const told = [
    ...sorts.map(({ name }) => [name, 'sort', '']),
    ...symbols.filter((it) => it.sort).map(({ name, sorts: of, sort, isConstructor }) => (
      [name.name, isConstructor ? 'constructor' : 'operator', `: ${names(of)}${of.length ? ' ' : ''}-> ${sort.name}`])),
    ...variables.map(({ name, sort }) => [name.name, 'variable', `: ${sort.name}`]),
  ];
  return told.map((it) => it.join('\t')).join('\n');
}

// The rules of a specification: where each begins, and its first line.
function rulesOf(spec) {
  const rows = new Rows(spec);
  return readSpec(spec).heads.filter((it) => it.side === 'Left').map(({ node: { from } }) => {
    const end = spec.indexOf('\n', from), to = end < 0 ? spec.length : end;
    return { ...rows.placeOf(from), from, to, text: spec.slice(from, to).trimEnd() };
  });
}

// What a profile tells: of each rule, if there was memory to count that, and of all.
function profileOf(counts, rules) {
  const [counted, steps, hits, saved, made, most, collections] = counts.map(Number);
  const used = rules.slice(0, counted).map((it, i) => {
    const at = COUNTS.totals + COUNTS.ofRule * i;
    const [matched, applied, failed] = counts.slice(at, at + COUNTS.ofRule).map(Number);
    return { ...it, matched, applied, failed };
  });
  return { rules: used, isCounted: counted === rules.length, totals: { steps, hits, saved, made, most, collections } };
}
