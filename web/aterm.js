// Reads annotated terms by the grammar of docs/reference/aterm.md: the parts of a term, and for a text outside the
// grammar the first token that is not allowed and the kinds of tokens that are. Offsets count characters.

const TERM_MARKS = new Map([['(', 'Open'], [')', 'Close'], ['[', 'OpenBracket'], [']', 'CloseBracket'],
  ['{', 'OpenBrace'], ['}', 'CloseBrace'], ['<', 'Less'], ['>', 'Greater'], [',', 'Comma']]);
// All kinds, in the order in which allowed tokens are listed.
const TERM_KINDS = ['Integer', 'Name', ...TERM_MARKS.values(), 'End'];
const TERM_LAYOUT = /[ \t\n\r]+/y;
const TERM_TOKEN = /(-?[0-9]+)|([A-Za-z_][A-Za-z0-9_\-+*$.]*)|[()[\]{}<>,]/y;
const QUOTED_ITEMS = /[^"\\]*(?:\\(?:[ntr\\"]|[0-3][0-7]{2})[^"\\]*)*/y;
const ESCAPES = new Map([['n', '\n'], ['t', '\t'], ['r', '\r'], ['\\', '\\'], ['"', '"']]);
const MOST_INTEGER = 2147483647;
// What each opening mark opens, and the mark that closes it.
const OPENED = { Open: 'Arguments', OpenBracket: 'List', OpenBrace: 'Annotations', Less: 'Placeholder' };
const CLOSING = { Arguments: 'Close', List: 'CloseBracket', Annotations: 'CloseBrace' };
const TERM_STARTS = new Set(['Integer', 'Name', 'Open', 'OpenBracket', 'Less']);

// The first token from an offset on. A bad one has a reason, if that is more than that no token starts there.
function termToken(text, at) {
  const from = afterLayout(text, at, TERM_LAYOUT);
  if (from === text.length) return { kind: 'End', from, to: from };
  if (text[from] === '"') return quotedToken(text, from);
  TERM_TOKEN.lastIndex = from;
  const match = TERM_TOKEN.exec(text);
  if (!match) return { kind: 'Bad', from, to: afterCharacter(text, from) };
  const [token, integer, name] = match, to = from + token.length;
  if (name !== undefined) return { kind: 'Name', from, to, name, isQuoted: false };
  if (integer === undefined) return { kind: TERM_MARKS.get(token), from, to };
  const value = Number(integer), isInRange = -MOST_INTEGER - 1 <= value && value <= MOST_INTEGER;
  return { kind: isInRange ? 'Integer' : 'Bad', reason: 'range', from, to, name: integer };
}

function quotedToken(text, from) {
  QUOTED_ITEMS.lastIndex = from + 1;
  QUOTED_ITEMS.test(text);
  const end = QUOTED_ITEMS.lastIndex;
  if (text[end] === '"') {
    return { kind: 'Name', from, to: end + 1, name: text.slice(from + 1, end), isQuoted: true };
  }
  const reason = end < text.length ? 'escape' : 'unended';
  return { kind: 'Bad', reason, from, to: end, escape: text.slice(end, end + 2) };
}

// The characters that the text of a quoted name spells.
function spelled(name) {
  if (!name.includes('\\')) return name;
  return name.replace(/\\([0-3][0-7]{2}|[^])/g, (_, it) => (
    it.length > 1 ? String.fromCharCode(parseInt(it, 8)) : ESCAPES.get(it)));
}

class TermReader {
  // `tellElement` gets the parts of each element of the list that the text is, and they are not kept.
  constructor(tellElement = null) {
    this.tellElement = tellElement;
    this.state = 'AtTerm';
    this.frames = [];     // what is open: `{opening, part, count}`
    this.parts = [];      // each before what it has: `{kind, name, from, to, parent, role, index, count, annotations}`
    this.last = -1;       // the part that was complete last
  }

  allows(kind) {
    const frame = this.frames.at(-1);
    switch (this.state) {
      case 'AtTerm': return TERM_STARTS.has(kind);
      case 'First': return TERM_STARTS.has(kind) || kind === CLOSING[frame.opening];
      case 'Named': return kind === 'Open' || kind === 'OpenBrace' || this.allowsAfterTerm(kind);
      case 'Body': return kind === 'OpenBrace' || this.allowsAfterTerm(kind);
      default: return this.allowsAfterTerm(kind);
    }
  }

  allowsAfterTerm(kind) {
    const frame = this.frames.at(-1);
    if (!frame) return kind === 'End';
    return frame.opening === 'Placeholder' ? kind === 'Greater' : kind === 'Comma' || kind === CLOSING[frame.opening];
  }

  // Goes on by an allowed token.
  take(token) {
    const { kind } = token;
    if (kind === 'OpenBrace' || (kind === 'Open' && this.state === 'Named')) this.open(token, this.last);
    else if (TERM_STARTS.has(kind)) this.begin(token);
    else if (kind === 'Comma') this.endItem();
    else if (kind !== 'End') this.close();
  }

  // A term begins: of a name or an integer it may be all.
  begin(token) {
    const kind = { Integer: 'integer', OpenBracket: 'list', Less: 'placeholder' }[token.kind] || 'application';
    const { name = '', isQuoted = false, from, to } = token;
    this.last = this.parts.length;
    this.parts.push({ kind, name, isQuoted, from, to, ...this.standing(), count: 0, annotations: 0 });
    if (kind === 'integer') this.state = 'Body';
    else if (token.kind === 'Name') this.state = 'Named';
    else this.open(token, this.last);
  }

  // Of which part the next one is an argument, an element, an annotation or the inner term.
  standing() {
    const frame = this.frames.at(-1);
    if (!frame) return { parent: -1, role: 'whole', index: 0 };
    const parent = this.parts[frame.part], role = frame.opening, index = frame.count++;
    parent[role === 'Annotations' ? 'annotations' : 'count'] = frame.count;
    return { parent: frame.part, role, index };
  }

  open({ kind }, part) {
    const opening = OPENED[kind];
    this.frames.push({ opening, part, count: 0 });
    this.state = opening === 'Placeholder' ? 'AtTerm' : 'First';
  }

  close() {
    this.endElement();
    const { opening, part } = this.frames.pop();
    this.last = part;
    this.state = opening === 'Annotations' ? 'Whole' : 'Body';
  }

  endItem() {
    this.endElement();
    this.state = 'AtTerm';
  }

  // An element of the list that the text is was complete.
  endElement() {
    const isOfList = this.frames.length === 1 && this.frames[0].opening === 'List';
    if (!this.tellElement || !isOfList || this.parts.length === 1) return;
    this.tellElement(this.parts);
    this.parts.length = 1;
  }
}

// The parts of a term, the term itself first; and for a text outside the grammar the rejected token and the kinds that
// are allowed there. With `tellElement`, this gets the parts of each element of a list, after the list's own.
function readTerm(text, tellElement = null) {
  const reader = new TermReader(tellElement);
  let at = 0;
  for (;;) {
    const token = termToken(text, at);
    if (!reader.allows(token.kind)) {
      const expected = TERM_KINDS.filter((it) => reader.allows(it));
      return { parts: reader.parts, error: { token, expected } };
    }
    if (token.kind === 'End') return { parts: reader.parts, error: null };
    reader.take(token);
    at = token.to;
  }
}
