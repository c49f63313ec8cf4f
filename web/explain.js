// What is told of an error beside its code: where it is, what was found and expected, and the declarations it is about.
// The words are those of `recw --explain`.

const MOST_SORTS = 20;
const LONGEST_FOUND = 40;  // characters of a token
const KNOWN = new Set(['term', 'int', 'str', 'appl', 'placeholder', 'list']);

// An error of a text: `source` is the name of one of `texts`, and `at` its offset in bytes, or null. The answer has the
// part of the text that it is about, `from` and `to`, or nulls; the notes; if the text is outside its grammar, what was
// found and the kinds of tokens that were expected; and for a known mistake a hint.
function explainError({ source, code, at }, texts) {
  const text = texts[source], from = at === null ? null : characterAt(text, at);
  const told = { source, code, from, to: from, notes: [], found: null, expected: [], hint: null };
  if (code === 'G' || code === 'A') return { ...told, ...explainGrammar(code, text, from) };
  const number = Number(code.slice(1));
  if (code[0] === 'S') return { ...told, to: specToken(text, from).to, notes: notesOfRule(number, text, from) };
  if (code === 'T1') return { ...told, ...explainUnlisted(text) };
  if (code[0] === 'T') return { ...told, ...explainInputTerm(number, texts) };
  if (code[0] === 'P') return { ...told, ...explainPlaceholder(code, text) };
  if (code[0] === 'M') return { ...told, ...explainArguments(code, texts) };
  return told;
}

function plainNumber(count, noun) { return `${count} ${noun}${count === 1 ? '' : 's'}`; }

// A text outside its grammar.
function explainGrammar(code, text, from) {
  const { error } = code === 'G' ? readSpec(text) : readTerm(text);
  if (!error || error.token.from !== from) return {};
  const { token, expected } = error, notes = [];
  if (text === '') notes.push('the text is empty');
  else if (token.kind === 'End') notes.push('unexpected end of text');
  else if (from === 0 && text.startsWith('\ufeff')) notes.push('unexpected byte order mark');
  const hint = code === 'G' ? findHint(text, error) : findTermHint(text, token);
  return { to: token.to, notes, found: foundToken(text, token), expected, hint };
}

// A token as it is shown, with what is wrong with a bad one.
function foundToken(text, { kind, reason, from, to, escape }) {
  if (kind === 'End') return null;
  const whole = text.slice(from, to), [line] = whole.split('\n');
  const shown = line.length > LONGEST_FOUND ? `${line.slice(0, LONGEST_FOUND)}…` : line;
  if (kind !== 'Bad') return `\`${shown}\``;
  if (reason === 'range') return `\`${shown}\`, which is outside -2147483648 to 2147483647`;
  if (reason === 'unended') return 'a quoted name that does not end';
  if (reason === 'escape') return `a quoted name with the wrong escape \`${escape}\``;
  return `\`${shown}\``;
}

// An error S1 to S11, whose number this is, at a word of a specification.
function notesOfRule(number, text, from) {
  const spec = readSpec(text), declared = new Declared(spec), { to } = specToken(text, from);
  const word = text.slice(from, to), node = spec.nodes.find((it) => it.from === from);
  const sort = spec.sorts.find((it) => it.name === word), symbol = declared.symbol(word);
  switch (number) {
    case 1: return sort ? [declaredIn(text, sort)] : [];
    case 2: return symbol ? [declaredIn(text, symbol.name)] : [];
    case 3: return notesOfOtherUse(text, symbol, declared.variable(word));
    case 4: return [listedSorts(spec.sorts)];
    case 5: return notesOfUndeclared(spec, declared.nearest(word, true), node);
    case 6: return node ? notesOfCount(word, symbol, node.count) : [];
    case 7: return node && node.call ? notesOf(declared.misfit(node.call.name, node.index, word)) : [];
    case 9: return notesOfSides(spec, declared, from);
    default: return [];
  }
}

function notesOf(note) { return note ? [note] : []; }

function didYouMean(name) { return name ? [`did you mean \`${name}\`?`] : []; }

// The nearest name to an undeclared word, or else the sections that can declare it.
function notesOfUndeclared({ heads, terms }, nearest, node) {
  if (nearest || !node) return didYouMean(nearest);
  const isDefined = heads.some((it) => it.side === 'Left' && it.node === node);
  let whole = node;
  while (whole.call) whole = whole.call;
  if (isDefined) return ['declare it in OPNS'];
  return [node.count || terms.includes(whole) ? 'declare it in CONS or OPNS' : 'declare it in VARS, CONS or OPNS'];
}

function declaredIn(text, { name, from }) { return `${name} is already declared on line ${lineAndColumn(text, from).line}`; }

function notesOfOtherUse(text, symbol, variable) {
  if (symbol) return [`the symbol ${declaredIn(text, symbol.name)}`];
  return variable ? [declaredIn(text, variable.name)] : [];
}

function listedSorts(sorts) {
  if (!sorts.length) return 'no sorts are declared';
  const names = sorts.slice(0, MOST_SORTS).map((it) => it.name).join(', '), more = sorts.length - MOST_SORTS;
  const rest = more > 0 ? ` and ${more} more` : '';
  return `${sorts.length === 1 ? 'the only declared sort is' : 'declared sorts are'} ${names}${rest}`;
}

function notesOfCount(word, symbol, given) {
  if (!symbol) return [`the variable ${word} takes no arguments`];
  return [`${word} takes ${plainNumber(symbol.sorts.length, 'argument')}, found ${given}`];
}

// The sorts of the two sides of the rule or condition that begins at an offset.
function notesOfSides({ heads }, declared, from) {
  const at = heads.findIndex(({ side, node }) => node.from === from && (side === 'Left' || side === 'ConditionLeft'));
  if (at < 0) return [];
  const [left, right] = heads.slice(at, at + 2).map(({ node }) => declared.sortOf(node.name));
  return left && right ? [`${left} on the left, ${right} on the right`] : [];
}

// Input terms, or arguments of a pattern, that are no list, or a list with annotations.
function explainUnlisted(text) {
  const { parts } = readTerm(text, () => {}), [whole] = parts;
  if (!whole) return {};
  if (whole.kind !== 'list') return { from: whole.from, to: whole.to, notes: ['write brackets around it, as in [a,b]'] };
  const from = startOfAnnotations(text);
  return { from, to: from + 1, notes: ['remove the annotations of the list'] };
}

// The offset at which the annotations of a whole text start.
function startOfAnnotations(text) {
  let at = 0, depth = 0, start = 0;
  for (;;) {
    const { kind, from, to } = termToken(text, at);
    if (kind === 'End' || kind === 'Bad') return start;
    if (kind === 'OpenBrace' && depth === 0) start = from;
    depth += (kind in OPENED) - (Object.values(CLOSING).includes(kind) || kind === 'Greater');
    at = to;
  }
}

// The first element of the list of input terms with an error T2 to T6, and its first part with that.
function explainInputTerm(number, { spec, terms }) {
  const declared = new Declared(readSpec(spec));
  let found = null, before = 0;
  readTerm(terms, ([, ...parts]) => {
    if (found) return;
    const bad = firstBad(number, parts, declared);
    const item = `element ${before + 1} of the list`;
    if (bad) found = { from: bad.from, to: bad.to, notes: [item, ...notesOfPart(number, bad, declared)] };
    before += 1;
  });
  return found || {};
}

// The first part of an input term with an error of this number. Only its subterms are checked. `parent` counts from the
// list on, which is before the parts.
function firstBad(number, parts, declared) {
  const subterms = new Map();
  for (const [i, part] of parts.entries()) {
    const parent = subterms.get(part.parent - 1) || null;
    if (i > 0 && !(part.role === 'Arguments' && parent)) continue;
    const given = { ...part, parent: i > 0 ? parent : null, word: wordOfPart(part, declared) };
    if (isBad(number, given, declared)) return given;
    subterms.set(i, given);
  }
  return null;
}

// The word of the specification that a name spells, if that is a symbol; else the name as it is written.
function wordOfPart({ name, isQuoted }, declared) {
  const word = isQuoted ? spelled(name) : name;
  return declared.symbol(word) ? word : name;
}

function isBad(number, part, declared) {
  const { kind, parent, word, index, count, annotations, isQuoted } = part, symbol = declared.symbol(word);
  switch (number) {
    case 2: return kind !== 'application';
    case 3: return annotations > 0 && parent !== null;
    case 4: return !symbol || isQuoted !== isQuotedInTerms(word);
    case 5: return symbol !== null && symbol.sorts.length !== count;
    default: return parent !== null && declared.misfit(parent.word, index, word) !== null;
  }
}

function notesOfPart(number, part, declared) {
  const { kind, parent, word, index, count } = part, symbol = declared.symbol(word);
  switch (number) {
    case 2: return kind === 'integer' ? [`found the integer ${word}`, ...meantSymbol(symbol)] : [`found a ${kind}`];
    case 3: return [`found on ${writtenName(part)}`];
    case 4: return [writtenName(part), ...(symbol ? meantSymbol(symbol) : didYouMean(declared.nearest(word, false)))];
    case 5: return notesOfCount(word, symbol, count);
    default: return [declared.misfit(parent.word, index, word)];
  }
}

function writtenName({ word, isQuoted }) { return isQuoted ? `"${word}"` : word || '()'; }

function meantSymbol(symbol) {
  if (!symbol) return [];
  const { name } = symbol.name;
  return didYouMean(isQuotedInTerms(name) ? `"${name}"` : name);
}

// The placeholders of a pattern, outside of the terms inside of others: each with what it takes, or null.
function placeholdersOf({ parts }) {
  const hidden = [], found = [];
  for (const [i, part] of parts.entries()) {
    hidden.push(part.role === 'Placeholder' || (part.parent >= 0 && hidden[part.parent]));
    if (!hidden[i] && part.kind === 'placeholder') found.push({ ...part, takes: kindOfInner(parts, i) });
  }
  return found;
}

function kindOfInner(parts, at) {
  const [name, ...others] = parts.filter((it, i) => i > at && it.parent === at && it.role === 'Placeholder');
  const isName = name && !others.length && name.kind === 'application' && !name.isQuoted;
  return isName && !name.count && !name.annotations && KNOWN.has(name.name) ? name.name : null;
}

// A placeholder that is not known, or has annotations.
function explainPlaceholder(code, text) {
  const found = placeholdersOf(readTerm(text)).find((it) => (code === 'P1' ? it.takes === null : it.annotations > 0));
  if (!found) return {};
  const to = placeholderEnd(text, found.from);
  const note = code === 'P1' ? 'found' : 'remove the annotations of';
  return { from: found.from, to, notes: [`${note} \`${text.slice(found.from, to)}\``] };
}

// The offset after the placeholder that starts here.
function placeholderEnd(text, from) {
  let at = from, depth = 0;
  do {
    const { kind, to } = termToken(text, at);
    depth += (kind === 'Less') - (kind === 'Greater');
    at = to;
  } while (depth > 0 && at < text.length);
  return at;
}

// Arguments of which there are too many or too few, or one that its placeholder does not take.
function explainArguments(code, { pattern, args }) {
  const wanted = takersOf(readTerm(pattern));
  const given = readTerm(args).parts.filter((it) => it.parent === 0 && it.role === 'List');
  if (code === 'M1') return { notes: [`expected ${wanted.length}, found ${given.length}`] };
  const at = wanted.findIndex((it, i) => !isTaken(it, given[i]));
  if (at < 0) return {};
  const { from, to } = given[at];
  return { from, to, notes: [`element ${at + 1} of the list`, `the placeholder is <${wanted[at].takes}>`] };
}

// The placeholders of a good pattern in the order of their bindings: those of annotations after those of what has them.
function takersOf(pattern) {
  const { parts } = pattern, found = placeholdersOf(pattern);
  for (const it of found) it.isRest = it.takes === 'list' && it.parent >= 0 && isLast(parts, it);
  return found;
}

function isLast(parts, { parent, role, index }) {
  const { count, annotations } = parts[parent];
  return index === (role === 'Annotations' ? annotations : count) - 1;
}

function isTaken({ takes, isRest }, { kind, isQuoted, count, annotations }) {
  switch (takes) {
    case 'int': return kind === 'integer';
    case 'str': return kind === 'application' && isQuoted && count === 0;
    case 'appl': return kind === 'application';
    case 'placeholder': return kind === 'placeholder';
    case 'list': return kind === 'list' && !(isRest && annotations > 0);
    default: return true;
  }
}
