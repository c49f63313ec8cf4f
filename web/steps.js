// A trace is read: its lines without whole terms and those with them, firing by firing.

const FIRING_LINE = /^(\d+):(\d+): (.*)$/;
const MORE_LINE = /^\.\.\. ([\d,]+) more$/;
const DOTS = '...';  // behind a text that was cut

// The terms of a trace: of each the first firings, how many more there are, and the line of its value or limit. `short`
// has lines of redexes, `long` those of whole terms, and before them that of the term itself.
function readTrace(short, long) {
  const wholes = linesByTerm(long);
  return linesByTerm(short).map(({ lines, more, end }, i) => (
    { firings: firingsOf(lines, wholes[i].lines), more, end }));
}

// The line of a firing begins with a digit, that of those left out with a dot; another one ends a term.
function linesByTerm(text) {
  const terms = [];
  let lines = [], more = '0';
  for (const line of text.split('\n').slice(0, -1)) {
    const left = MORE_LINE.exec(line);
    if (left) [, more] = left;
    else if (/^\d/.test(line)) lines.push(line);
    else {
      terms.push({ lines, more, end: line });
      lines = [];
      more = '0';
    }
  }
  return terms;
}

function firingsOf(lines, wholes) {
  const terms = wholes.map((it) => textOfLine(it).term);
  return lines.map((text, i) => {
    const { line, column, term, steps } = textOfLine(text), [redex, contractum] = term.split(' -> ');
    return { line, column, steps, redex, contractum, before: terms[i], after: terms[i + 1] };
  });
}

// What a line tells: the place of the rule, what stands behind it, and the steps, where there are any.
function textOfLine(text) {
  const [, line, column, rest] = FIRING_LINE.exec(text), [term, steps] = rest.split('\t');
  return { line: Number(line), column: Number(column), term, steps: steps === undefined ? null : BigInt(steps) };
}

// Where the redex stands in the whole term before a firing, from its first character to behind its last, and behind
// which character the contractum ends after it; nothing where that is not shown. It is the first part that is this
// term: arguments are evaluated from left to right, so an equal part before it would have fired.
function placeOfRedex({ before, after, redex, contractum }) {
  const [whole, later, part, made] = [before, after, redex, contractum].map(shownOf);
  for (const { index } of whole.text.matchAll(/(?<=^|[(,])/g)) {
    if (!standsAt(whole, index, part) || !isAlike(replaced(whole, index, part, made), later)) continue;
    // a redex that runs into the dots is one only where it is seen to become another
    if (index + part.text.length > whole.text.length && whole.text === later.text) return null;
    const end = (of, inside) => Math.min(index + inside.text.length, of.text.length);
    return { from: index, to: end(whole, part), until: end(later, made) };
  }
  return null;
}

// What is shown of a text that may be cut.
function shownOf(text) {
  const isCut = text.endsWith(DOTS);
  return { text: isCut ? text.slice(0, -DOTS.length) : text, isCut };
}

// Whether a part may stand in a term at this place, as far as both are shown.
function standsAt(whole, at, part) {
  const rest = whole.text.slice(at), behind = rest[part.text.length];
  if (rest.startsWith(part.text)) return part.isCut || behind === undefined || /[),]/.test(behind);
  return whole.isCut && rest !== '' && part.text.startsWith(rest);
}

// The term with another part there. Where that is cut, a term of this beginning is cut no later.
function replaced(whole, at, part, made) {
  const text = whole.text.slice(0, at) + made.text + whole.text.slice(at + part.text.length);
  return { text, isCut: whole.isCut };
}

// Whether two texts may be one, as far as both are shown.
function isAlike(one, other) {
  if (!one.isCut && !other.isCut) return one.text === other.text;
  const [short, long] = one.text.length < other.text.length ? [one, other] : [other, one];
  return long.text.startsWith(short.text) && (short.isCut || short.text === long.text);
}

if (typeof module !== 'undefined') module.exports = { readTrace, placeOfRedex };
