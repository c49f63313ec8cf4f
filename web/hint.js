// Hints for a specification or an annotated term outside its grammar: what is written in place of what the grammar has
// there. Each has the part of the text that it is about. One that says what to write is given only if the text with
// that is read further.

const MOST_BEFORE = 4;        // tokens before an error that hints are about
const MOST_TRIED = 3;         // misspelled words
const NEAR = 2;               // tokens that are read of a changed text if a change is right that is hardly doubtful
const FAR = 3;                // and if a doubtful one is
const RESERVED_WORDS = ['REC-SPEC', 'SORTS', 'CONS', 'OPNS', 'VARS', 'RULES', 'EVAL', 'END-SPEC', 'and-if', 'if'];
const OTHER_WORDS = new Map([['END', 'END-SPEC'], ['CONSTRUCTORS', 'CONS'], ['CTORS', 'CONS'], ['FUNCTIONS', 'OPNS'],
  ['OPERATIONS', 'OPNS'], ['OPERATORS', 'OPNS'], ['VARIABLES', 'VARS'], ['EQUATIONS', 'RULES'], ['EQNS', 'RULES'],
  ['REWRITES', 'RULES'], ['TYPES', 'SORTS'], ['EVALUATE', 'EVAL'], ['TERMS', 'EVAL'], ['WHEN', 'if'], ['WHERE', 'if'],
  ['AND', 'and-if']]);
const ANY_WORD = /%[^\n]*|(?:[A-Za-z0-9_']|-(?=[A-Za-z0-9_]))+/g;
// Other spellings of a token: what is written, the kind of the token, how that is written, and what it is called.
const SPELLINGS = [...['==>', '-->', '::=', '–>', '—>', ':=', '=>', '~>', '==', '- >', '→', '⇒', '='].map((it) => (
  [it, 'Arrow', '->', 'an arrow'])),
...['=:=', '-> <-', '-><', '==', '=>', '->', '='].map((it) => [it, 'Equal', '-><-', 'a comparison']),
...['=/=', '!=', '/=', '<>', '≠'].map((it) => [it, 'Unequal', '->/<-', 'a comparison'])];
const PART_OF_MARK = /[-=<>~:!/]/;
const QUOTES = ['’', '‘', '′', '´', '`'];
const NO_BREAK_SPACES = ['\u00a0', '\u202f'];
// The marks that start a comment in other languages, and those that end it, or null if the line does.
const COMMENTS = [['<!--', '-->'], ['(*', '*)'], ['/*', '*/'], ['{-', '-}'], ['//', null], ['--', null], ['#', null],
  [';', null]];
const JOINERS = [',', 'if', '&&', '/\\', '&'];  // between conditions, in place of the reserved word
// Marks that no comment starts with.
const NO_COMMENT = /[=<>:(),]/;
const ITEMS = ['declarations', 'declarations', 'declarations', 'declarations', 'rules', 'terms'];  // by section

// A text, its first token that is not allowed, and what is before that.
class Fault {
  constructor(text, { token, expected }) {
    this.text = text;
    this.token = token;
    this.at = token.from;
    this.expected = new Set(expected);
    this.section = -1;    // the open one, as an index of SECTIONS
    this.heads = [];      // where each section starts
    this.open = 0;        // the number of open parentheses
    this.before = [];     // the last tokens, the last one first
    for (let it = specToken(text, 0); it.from < this.at; it = specToken(text, it.to)) this.pass(it);
  }

  pass(token) {
    const section = SECTIONS.indexOf(token.kind);
    if (section >= 0) this.enter(section, token.from);
    this.open += (token.kind === 'Open') - (token.kind === 'Close');
    this.before = [token, ...this.before.slice(0, MOST_BEFORE - 1)];
  }

  enter(section, from) {
    this.section = section;
    this.heads[section] = from;
  }

  // Whether the last tokens are of these kinds, the last one first.
  follows(...kinds) { return kinds.every((it, i) => this.before[i] && this.before[i].kind === it); }

  starts(words) { return this.text.startsWith(words, this.at); }

  isAtItem() { return this.expected.has('EndSpec'); }

  next() { return specToken(this.text, this.token.to); }
}

// A hint about a part of the text.
function hintAt({ from, to }, words, change = null) { return { from, to, words, change }; }

function changed(text, { from, to, meant }) { return text.slice(0, from) + meant + text.slice(to); }

function blanked(text, { from, to }) { return changed(text, { from, to, meant: ' '.repeat(to - from) }); }

// The offset of the first token that is not allowed.
function faultOf(text) {
  const { error } = readSpec(text);
  return error ? error.token.from : Infinity;
}

// Whether so many tokens from an offset on are allowed, and all before them, or all of the text.
function isRead(text, at, count) {
  const fault = faultOf(text);
  if (fault === Infinity) return true;
  let token = specToken(text, at), read = 0;
  for (; token.from < fault && read < count; token = specToken(text, token.to)) read += 1;
  return read === count;
}

// Whether the first error is at such a mark, and not before an offset.
function isNextAt(text, at, mark) {
  const fault = faultOf(text);
  return fault >= at && text[fault] === mark;
}

// The offset of the error in the text with an earlier part changed, or that of the changed part itself.
function movedBy({ from, to, meant }, at) { return to <= at ? at + meant.length - (to - from) : from; }

// The hints, of which the first one that fits is given.
const HINTS = [ofUtf16, ofConflict, ofSpelling, ofQuote, ofSpace, ofMark, ofComment, ofLetter, ofOrder, ofNoName,
  ofSecond, ofUnclosed, ofMissingComma, ofUnopened, ofParentheses, ofJoined, ofComma, ofSecondArrow, ofNoArrow,
  ofEarlyCondition, ofRuleInEval, ofMisspelling];

function findHint(text, error) {
  const fault = new Fault(text, error);
  for (const it of HINTS) {
    const hint = it(fault);
    if (hint) return hint;
  }
  return null;
}

function ofUtf16({ text, expected }) {
  const isMarked = /^(?:\xff\xfe|\xfe\xff)/.test(text), isWide = /^(?:[\x01-\x7f]\0|\0[\x01-\x7f])/.test(text);
  if (!expected.has('RecSpec') || !(isMarked || isWide)) return null;
  return hintAt({ from: 0, to: 2 }, 'the text is in UTF-16; save it in UTF-8');
}

function ofConflict({ text, token, at }) {
  const isThere = /^(?:<{7}|>{7}) /.test(text.slice(at, at + 8)) && (at === 0 || text[at - 1] === '\n');
  return token.kind === 'Bad' && isThere ? hintAt({ from: at, to: at + 7 }, 'a conflict of a merge') : null;
}

// Another spelling of what is allowed.
function ofSpelling(fault) {
  const { text, at, expected } = fault;
  for (const [written, kind, meant, what] of SPELLINGS) {
    const change = { from: at, to: at + written.length, meant };
    const isThere = expected.has(kind) && fault.starts(written) && !PART_OF_MARK.test(text[change.to] || '');
    if (isThere && isRead(changed(text, change), at, NEAR)) return insteadOf(change, what);
  }
  return null;
}

function insteadOf(change, what) { return hintAt(change, `not ${what}; did you mean ${change.meant}?`, change); }

function ofQuote(fault) {
  const { text, at } = fault, written = QUOTES.find((it) => fault.starts(it));
  if (!written) return null;
  const change = { from: at, to: at + written.length, meant: "'" };
  return isRead(changed(text, change), at, 1) ? insteadOf(change, 'a quote') : null;
}

function ofSpace(fault) {
  const { text, at } = fault, written = NO_BREAK_SPACES.find((it) => fault.starts(it));
  if (!written) return null;
  const change = { from: at, to: at + written.length, meant: ' ' };
  return isRead(changed(text, change), at, 1) ? hintAt(change, 'no-break space; write a space', change) : null;
}

// A mark at the end of an item.
function ofMark(fault) {
  const { text, at, section } = fault, mark = text[at];
  const isThere = mark === ';' || (mark === '.' && /^(?:[ \t\r\n%]|$)/.test(text.slice(at + 1, at + 2)));
  if (!isThere || section < 0 || !fault.isAtItem()) return null;
  const change = { from: at, to: at + 1, meant: ' ' };
  if (!isRid(text, change)) return null;
  return hintAt(change, `${ITEMS[section]} end without a mark; remove this ${mark}`, change);
}

// Whether the line is right without a mark, and the text is read on up to another of that kind at least.
function isRid(text, change) {
  const left = changed(text, change), end = lineEnd(text, change.from);
  return isNextAt(left, end, text[change.from]) || (faultOf(left) >= end && isRead(left, change.from, FAR));
}

function lineEnd(text, at) {
  const end = text.indexOf('\n', at);
  return end < 0 ? text.length : end;
}

function ofComment(fault) {
  const { text, at } = fault, isInside = text[at] === '*' && fault.follows('Open');
  const from = isInside ? at - 1 : at, [mark, closer] = COMMENTS.find(([it]) => text.startsWith(it, from)) || [];
  if (!mark || NO_COMMENT.test(text[from + mark.length])) return null;
  const to = commentEnd(text, from + mark.length, closer), left = blanked(text, { from, to });
  if (!text.startsWith(mark, specToken(text, to).from) && !isRead(left, to, 1)) return null;
  return hintAt({ from, to: from + mark.length }, 'not a comment; comments start with %');
}

// The offset after a comment: after the mark that ends it if there is one, else that of the line's end.
function commentEnd(text, from, closer) {
  const end = closer ? text.indexOf(closer, from) : -1;
  return end < 0 ? lineEnd(text, from) : end + closer.length;
}

function ofLetter({ text, token, at }) {
  if (token.kind !== 'Bad' || !isOtherLetter(text.codePointAt(at))) return null;
  return hintAt(token, 'other letters than those of ASCII are in comments only');
}

// Whether a character outside ASCII is in one of the blocks that have mostly letters.
function isOtherLetter(code) {
  if (code === 0xd7 || code === 0xf7) return false;
  return (code >= 0xc0 && code < 0x2000) || (code >= 0x3040 && code < 0xe000);
}

function ofOrder(fault) {
  const { text, token, heads } = fault, section = SECTIONS.indexOf(token.kind), { kind } = fault.next();
  if (section < 0 || !fault.isAtItem() || kind === 'Colon' || kind === 'Open') return null;
  const word = text.slice(token.from, token.to), later = heads.findIndex((it, i) => i > section && it !== undefined);
  if (heads[section] !== undefined) {
    const { line } = lineAndColumn(text, heads[section]);
    return hintAt(token, `section out of order; ${word} is already on line ${line}`);
  }
  return later < 0 ? null : hintAt(token, `section out of order; write ${word} before ${RESERVED_WORDS[later + 1]}`);
}

function ofNoName(fault) {
  const { kind } = fault.token, isThere = SECTIONS.includes(kind) || kind === 'EndSpec' || kind === 'End';
  if (!isThere || !fault.follows('RecSpec')) return null;
  return hintAt(fault.token, 'the specification has no name; write REC-SPEC NAME');
}

function ofSecond({ token, expected }) {
  if (!expected.has('End') || token.kind !== 'RecSpec') return null;
  return hintAt(token, 'a second specification; a text has only one');
}

// The text with all open parentheses closed, or with a comma, before the error.
function closedBefore({ text, at, open }) { return changed(text, { from: at, to: at, meant: ')'.repeat(open) }); }

function separatedBefore({ text, at }) { return changed(text, { from: at, to: at, meant: ',' }); }

function ofUnclosed(fault) {
  const { text, token, at, open, expected } = fault;
  if (!open || !expected.has('Close') || token.kind === 'Bad') return null;
  const closed = closedBefore(fault), isWord = token.kind === 'PlainWord';
  if (!isRead(closed, at + open, 1) || (isWord && !isBetterClosed(fault, closed))) return null;
  const from = openParenthesis(text, at, open);
  return hintAt({ from, to: from + 1 }, 'this parenthesis is not closed');
}

// Whether before a word parentheses are missing, and not a comma.
function isBetterClosed(fault, closed) {
  const { at, open } = fault;
  return isRead(closed, at + open, FAR) && faultOf(closed) - open > faultOf(separatedBefore(fault)) - 1;
}

// The offset of the innermost of so many open parentheses.
function openParenthesis(text, at, open) {
  let depth = 0, found = 0;
  for (let it = specToken(text, 0); it.from < at; it = specToken(text, it.to)) {
    depth += (it.kind === 'Open') - (it.kind === 'Close');
    if (it.kind === 'Open' && depth === open) found = it.from;
  }
  return found;
}

function ofMissingComma(fault) {
  const { token, at, open, expected } = fault;
  if (token.kind !== 'PlainWord' || !expected.has('Comma')) return null;
  const separated = separatedBefore(fault), isBetter = faultOf(separated) - 1 > faultOf(closedBefore(fault)) - open;
  if (!isBetter || !isRead(separated, at + 1, FAR)) return null;
  return hintAt(token, 'arguments are separated by commas', { from: at, to: at, meant: ',' });
}

function ofUnopened({ token, open }) {
  return token.kind === 'Close' && !open ? hintAt(token, 'no parenthesis is open here') : null;
}

// A term in parentheses of its own.
function ofParentheses({ text, token, section, expected }) {
  if (token.kind !== 'Open' || !expected.has('PlainWord') || section < SECTIONS.indexOf('Rules')) return null;
  const close = closingOf(text, token);
  if (!close || !isRead(blanked(blanked(text, token), close), close.to, 1)) return null;
  return hintAt(token, 'a term starts with a symbol or a variable; remove the parentheses around it');
}

// The parenthesis that closes another around one term, or null.
function closingOf(text, token) {
  let depth = 0, last = null;
  for (let it = token; it.kind !== 'End' && it.kind !== 'Bad'; it = specToken(text, it.to)) {
    depth += (it.kind === 'Open') - (it.kind === 'Close');
    if (depth === 0) return last === token ? null : it;
    if (depth === 1 && it.kind === 'Comma') return null;
    last = it;
  }
  return null;
}

// Conditions that are not joined by the reserved word.
function ofJoined(fault) {
  const { text, token, at, expected } = fault;
  const written = JOINERS.find((it) => fault.starts(it)), isWord = written === 'if' && token.kind !== 'If';
  if (!written || isWord || !expected.has('AndIf')) return null;
  const change = { from: at, to: at + written.length, meant: ' and-if ' };
  if (!isRead(changed(text, change), at, FAR)) return null;
  return hintAt(change, 'conditions are joined by and-if', change);
}

// A comma between words or terms that are separated by spaces. Between terms the whole line must be right without it.
function ofComma(fault) {
  const { text, token, at } = fault, what = itemsAt(fault), change = { from: at, to: at + 1, meant: ' ' };
  if (token.kind !== 'Comma' || !what) return null;
  const left = changed(text, change);
  if (!(what === 'terms' ? isRid(text, change) : isNextAt(left, at, ',') || isRead(left, at, FAR))) return null;
  return hintAt(change, `${what} are separated by spaces; remove this comma`, change);
}

// What is separated by spaces at the error, or null.
function itemsAt({ section, open, expected }) {
  const words = expected.has('PlainWord') && !open;
  if (words && (expected.has('Arrow') || SECTIONS[section] === 'Sorts')) return 'sorts';
  if (words && expected.has('Colon')) return 'variables';
  return words && SECTIONS[section] === 'Eval' ? 'terms' : null;
}

function ofSecondArrow(fault) {
  const { text, token, at, section } = fault, isSymbol = section === 1 || section === 2;
  if (token.kind !== 'Arrow' || !isSymbol || !fault.follows('PlainWord', 'Arrow')) return null;
  if (!isRead(blanked(text, fault.before[1]), at, 1)) return null;
  return hintAt(token, 'one arrow in a declaration; separate the sorts of arguments by spaces');
}

// A declaration without an arrow.
function ofNoArrow(fault) {
  const { text, at, expected } = fault, isNext = fault.token.kind === 'Colon';
  const [sort, colon, name] = isNext ? fault.before.slice(1) : fault.before;
  if (!expected.has('Arrow') || !expected.has('PlainWord') || !sort || sort.kind !== 'PlainWord') return null;
  const change = { from: sort.from, to: sort.from, meant: '-> ' };
  if (!isRead(changed(text, change), movedBy(change, at), NEAR)) return null;
  if (colon.kind !== 'Colon') return hintAt(sort, 'a declaration has an arrow before its last sort', change);
  const [symbol, result] = [name, sort].map((it) => text.slice(it.from, it.to));
  const words = `a constant has an arrow; did you mean ${symbol} : -> ${result}?`;
  return hintAt({ from: name.from, to: sort.to }, words, change);
}

function ofEarlyCondition(fault) {
  const { token, section, expected } = fault, isRule = SECTIONS[section] === 'Rules' && !expected.has('AndIf');
  return isRule && token.kind === 'If' && fault.isAtItem() ? hintAt(token, 'a condition comes after its rule') : null;
}

function ofRuleInEval(fault) {
  const isThere = fault.token.kind === 'Arrow' && SECTIONS[fault.section] === 'Eval' && fault.isAtItem();
  return isThere ? hintAt(fault.token, 'EVAL has terms; write rules in RULES') : null;
}

// The last word at or before an error that may be a reserved one misspelled.
function ofMisspelling({ text, at }) {
  const change = lastNear(text, at).find((it) => isMended(text, at, it));
  return change ? insteadOf(change, /if$/.test(change.meant) ? 'a reserved word' : 'a section') : null;
}

// The last words, the last one first, that start at or before an offset and are near to a reserved word.
function lastNear(text, at) {
  const near = [];
  for (const { 0: word, index } of text.matchAll(ANY_WORD)) {
    if (index > at) break;
    const meant = meantBy(word), isSplit = text.startsWith(' SPEC', index + word.length);
    const split = isSplit && /^(?:END|REC)$/.test(word) ? 5 : 0;
    const joined = split ? `${word}-SPEC` : meant;
    if (joined) near.push({ from: index, to: index + word.length + split, meant: joined });
  }
  return near.slice(-MOST_TRIED).reverse();
}

// The reserved word that another word is near to, or means in other languages.
function meantBy(word) {
  if (word[0] === '%' || RESERVED_WORDS.includes(word)) return null;
  const near = RESERVED_WORDS.find((it) => gapBetween(word, it) <= mostApart(word.length));
  return near || OTHER_WORDS.get(word.toUpperCase()) || null;
}

// Whether a text is read further with a reserved word in the place of another, which is hardly doubtful if it is in
// upper case or for the first or the last word of the text.
function isMended(text, at, change) {
  const { from, to, meant } = change, word = text.slice(from, to);
  const isLikely = meant.endsWith('-SPEC') || (/^[A-Z]/.test(word) && !OTHER_WORDS.has(word.toUpperCase()));
  return isRead(changed(text, change), movedBy(change, at), isLikely ? 1 : FAR);
}

const ESCAPES_TOLD = 'not an escape; write \\n, \\t, \\r, \\\\, \\" or three octal digits, such as \\101';

// A hint for an annotated term outside the grammar: what is wrong with the token there.
function findTermHint(text, { kind, reason, from, to }) {
  if (kind === 'Bad' && reason === 'range') return hintAt({ from, to }, 'integers are from -2147483648 to 2147483647');
  if (reason === 'unended') return hintAt({ from, to: from + 1 }, 'this quoted name does not end');
  if (reason === 'escape') return hintAt({ from: to, to: to + 2 }, ESCAPES_TOLD);
  const isReal = /^[0-9]\.[0-9]$/.test(text.slice(Math.max(0, from - 1), from + 2));
  return isReal ? hintAt({ from, to: from + 1 }, 'terms have no real numbers') : null;
}
