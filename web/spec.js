// Reads a specification by the grammar of docs/reference/rec.md: what it declares, its terms, and if it is outside the
// grammar the first token that is not allowed and the kinds of tokens that are. Offsets count characters.

const RESERVED = new Map([['REC-SPEC', 'RecSpec'], ['SORTS', 'Sorts'], ['CONS', 'Cons'], ['OPNS', 'Opns'],
  ['VARS', 'Vars'], ['RULES', 'Rules'], ['EVAL', 'Eval'], ['END-SPEC', 'EndSpec'], ['if', 'If'], ['and-if', 'AndIf']]);
const SPEC_MARKS = new Map([[':', 'Colon'], ['(', 'Open'], [')', 'Close'], [',', 'Comma'], ['->', 'Arrow'],
  ['-><-', 'Equal'], ['->/<-', 'Unequal']]);
const SECTIONS = ['Sorts', 'Cons', 'Opns', 'Vars', 'Rules', 'Eval'];
// All kinds, in the order in which allowed tokens are listed.
const SPEC_KINDS = ['PlainWord', ...RESERVED.values(), ...SPEC_MARKS.values(), 'End'];
const SPEC_LAYOUT = /[ \t\n\r]+|%[^\n]*/y;
const SPEC_TOKEN = /([A-Za-z0-9_](?:[A-Za-z0-9_']|-(?=[A-Za-z0-9_]))*)|-><-|->\/<-|->|[:(),]/y;

// The offset after the layout that starts here.
function afterLayout(text, at, layout) {
  layout.lastIndex = at;
  let end = at;
  while (layout.test(text)) end = layout.lastIndex;
  return end;
}

// The offset after a character, which may take two units of UTF-16.
function afterCharacter(text, at) {
  return at + (text.codePointAt(at) > 0xffff ? 2 : 1);
}

// The first token from an offset on.
function specToken(text, at) {
  const from = afterLayout(text, at, SPEC_LAYOUT);
  if (from === text.length) return { kind: 'End', from, to: from };
  SPEC_TOKEN.lastIndex = from;
  const match = SPEC_TOKEN.exec(text);
  if (!match) return { kind: 'Bad', from, to: afterCharacter(text, from) };
  const [token, word] = match;
  const kind = word === undefined ? SPEC_MARKS.get(token) : RESERVED.get(word) || 'PlainWord';
  return { kind, from, to: from + token.length };
}

class SpecReader {
  constructor(text) {
    this.text = text;
    this.state = 'Start';
    this.section = -1;    // the open one, as an index of SECTIONS
    this.side = null;     // which part of a rule, or of EVAL, the term is
    this.calls = [];      // the applications whose arguments are not complete, by their first words
    this.sorts = [];      // all words are `{from, to, name}`
    this.symbols = [];    // `{name, sort, sorts, isConstructor}`
    this.variables = [];  // `{name, sort}`
    this.nodes = [];      // the words of terms, with the number of arguments, and of which word each is an argument
    this.heads = [];      // the first words of rules, of right-hand sides and of the terms of conditions, in order
    this.terms = [];      // the first words of the EVAL terms
  }

  allows(kind) {
    switch (this.state) {
      case 'Start': return kind === 'RecSpec';
      case 'Named': return kind === 'Colon';
      case 'Arguments': return kind === 'PlainWord' || kind === 'Arrow';
      case 'Grouped': return kind === 'PlainWord' || kind === 'Colon';
      case 'First': return kind === 'PlainWord' || kind === 'Close';
      case 'Between': return this.allowsAfterItem(kind);
      case 'Called': return kind === 'Open' || this.allowsAfterTerm(kind);
      case 'After': return this.allowsAfterTerm(kind);
      case 'Ended': return kind === 'End';
      default: return kind === 'PlainWord';
    }
  }

  allowsAfterItem(kind) {
    if (kind === 'PlainWord') return this.section >= 0;
    return kind === 'EndSpec' || SECTIONS.indexOf(kind) > this.section;
  }

  allowsAfterTerm(kind) {
    if (this.calls.length) return kind === 'Comma' || kind === 'Close';
    switch (this.side) {
      case 'Left': return kind === 'Arrow';
      case 'ConditionLeft': return kind === 'Equal' || kind === 'Unequal';
      case 'Right': return kind === 'If' || this.allowsAfterItem(kind);
      case 'ConditionRight': return kind === 'AndIf' || this.allowsAfterItem(kind);
      default: return this.allowsAfterItem(kind);
    }
  }

  wordOf({ from, to }) { return { from, to, name: this.text.slice(from, to) }; }

  // Goes on by an allowed token.
  take(token) {
    const { kind } = token;
    switch (this.state) {
      case 'Start': this.state = 'Title'; break;
      case 'Title': this.state = 'Between'; break;
      case 'Between': this.takeItem(token); break;
      case 'Named': this.state = 'Arguments'; break;
      case 'Arguments': this.takeArgument(token); break;
      case 'ResultSort': this.takeSymbol(token); break;
      case 'Grouped': this.takeOfGroup(token); break;
      case 'GroupSort': this.takeGroup(token); break;
      case 'AtTerm': this.takeWord(token); break;
      case 'First': if (kind === 'Close') this.closeCall(); else this.takeWord(token); break;
      default: this.takeAfterWord(token);
    }
  }

  takeItem(token) {
    const { kind } = token;
    if (kind === 'EndSpec') this.state = 'Ended';
    else if (kind !== 'PlainWord') this.section = SECTIONS.indexOf(kind);
    else this.beginItem(token);
  }

  beginItem(token) {
    const word = this.wordOf(token), section = SECTIONS[this.section];
    if (section === 'Sorts') this.sorts.push(word);
    else if (section === 'Cons' || section === 'Opns') {
      this.symbols.push({ name: word, sorts: [], sort: null, isConstructor: section === 'Cons' });
      this.state = 'Named';
    } else if (section === 'Vars') {
      this.group = [word];
      this.state = 'Grouped';
    } else {
      this.side = section === 'Rules' ? 'Left' : 'Eval';
      this.takeWord(token);
    }
  }

  takeArgument(token) {
    if (token.kind === 'Arrow') this.state = 'ResultSort';
    else this.symbols.at(-1).sorts.push(this.wordOf(token));
  }

  takeSymbol(token) {
    this.symbols.at(-1).sort = this.wordOf(token);
    this.state = 'Between';
  }

  takeOfGroup(token) {
    if (token.kind === 'Colon') this.state = 'GroupSort';
    else this.group.push(this.wordOf(token));
  }

  takeGroup(token) {
    const sort = this.wordOf(token);
    for (const name of this.group) this.variables.push({ name, sort });
    this.state = 'Between';
  }

  // A word of a term, which is the first of the whole term outside of all parentheses.
  takeWord(token) {
    const call = this.calls.at(-1) || null, node = { ...this.wordOf(token), count: 0, call, index: 0 };
    if (call) node.index = call.count++;
    else if (this.side === 'Eval') this.terms.push(node);
    else this.heads.push({ side: this.side, node });
    this.nodes.push(node);
    this.state = 'Called';
  }

  takeAfterWord(token) {
    const { kind } = token;
    if (kind === 'Open') {
      this.calls.push(this.nodes.at(-1));
      this.state = 'First';
    } else if (kind === 'Close') this.closeCall();
    else if (kind === 'Comma') this.state = 'AtTerm';
    else this.takeAfterTerm(token);
  }

  closeCall() {
    this.calls.pop();
    this.state = 'After';
  }

  takeAfterTerm(token) {
    const next = { Arrow: 'Right', If: 'ConditionLeft', AndIf: 'ConditionLeft', Equal: 'ConditionRight',
      Unequal: 'ConditionRight' }[token.kind];
    if (next) this.side = next;
    this.state = next ? 'AtTerm' : 'Between';
    if (!next) this.takeItem(token);
  }
}

// What a specification declares and its terms; and of one outside the grammar the rejected token and the kinds that are
// allowed there.
function readSpec(text) {
  const reader = new SpecReader(text);
  let at = 0;
  for (;;) {
    const token = specToken(text, at);
    if (!reader.allows(token.kind)) {
      return { ...reader, error: { token, expected: SPEC_KINDS.filter((it) => reader.allows(it)) } };
    }
    if (token.kind === 'End') return { ...reader, error: null };
    reader.take(token);
    at = token.to;
  }
}
