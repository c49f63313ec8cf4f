// A text in rows, and its history. A row is a line, or a piece of a line that is longer than a row may be.

const LONGEST_ROW = 500;      // characters
const MOST_UNDONE = 1000;     // edits
const TYPING_PAUSE = 1000;    // milliseconds, after which typing is another edit

class Rows {
  constructor(text) {
    this.text = text;
    this.starts = rowStarts(text, 0, text.length);
    this.pieces = this.countPieces(0, this.rows);   // rows that are no beginning of a line
  }

  get length() { return this.text.length; }

  get rows() { return this.starts.length; }

  // The row of an offset; that of the end of a row that is no line is the next one.
  rowOf(at) {
    let low = 0, high = this.starts.length;
    while (high - low > 1) {
      const middle = (low + high) >> 1;
      if (this.starts[middle] <= at) low = middle;
      else high = middle;
    }
    return low;
  }

  startsLine(row) { return row === 0 || this.text[this.starts[row] - 1] === '\n'; }

  // The offset after the last character of a row, before the end of the line.
  endOf(row) {
    if (row + 1 === this.rows) return this.length;
    return this.starts[row + 1] - (this.startsLine(row + 1) ? 1 : 0);
  }

  countPieces(from, to) {
    let count = 0;
    for (let i = from; i < to; i++) count += !this.startsLine(i);
    return count;
  }

  // The number of the line that a row is in, from 1.
  lineOf(row) { return row + 1 - (this.pieces ? this.countPieces(0, row + 1) : 0); }

  // The first row of the line that a row is in, and the first one after it.
  lineAround(row) {
    let from = row, to = row + 1;
    while (!this.startsLine(from)) from -= 1;
    while (to < this.rows && !this.startsLine(to)) to += 1;
    return [from, to];
  }

  // The line and the column of an offset, each from 1.
  placeOf(at) {
    const row = this.rowOf(at), [first] = this.lineAround(row);
    return { line: this.lineOf(row), column: at - this.starts[first] + 1 };
  }

  // The row of a line, the last one for lines beyond the end.
  rowOfLine(line) {
    if (!this.pieces) return Math.min(line, this.rows) - 1;
    let row = 0;
    for (let left = line - 1; left > 0 && row < this.rows - 1;) if (this.startsLine(++row)) left -= 1;
    return row;
  }

  // Puts another text in place of a part.
  replace(from, to, inserted) {
    const [first] = this.lineAround(this.rowOf(from)), [, last] = this.lineAround(this.rowOf(to));
    const begin = this.starts[first], more = inserted.length - (to - from);
    const end = (last < this.rows ? this.starts[last] - 1 : this.length) + more;
    const gone = this.pieces ? this.countPieces(first, last) : 0;
    this.text = this.text.slice(0, from) + inserted + this.text.slice(to);
    const behind = this.starts.slice(last);
    if (more) for (let i = 0; i < behind.length; i++) behind[i] += more;
    const made = rowStarts(this.text, begin, end);
    this.starts = this.starts.slice(0, first).concat(made, behind);
    this.pieces += this.countPieces(first, first + made.length) - gone;
  }
}

// Where the rows start of the lines from an offset to another one, at which a line ends.
function rowStarts(text, from, to) {
  const starts = [];
  let start = from;
  for (;;) {
    const found = text.indexOf('\n', start), end = found < 0 || found > to ? to : found;
    starts.push(start);
    for (let at = start + LONGEST_ROW; at < end; at += LONGEST_ROW) starts.push(at);
    if (end === to) return starts;
    start = end + 1;
  }
}

// Edits, of which each is `{from, removed, inserted, before, after}`: where, what, and the selections around it.
class Edits {
  constructor() {
    this.done = [];
    this.undone = [];
  }

  note(edit) {
    this.undone = [];
    const last = this.done.at(-1);
    if (last && goesOn(last, edit)) {
      last.inserted += edit.inserted;
      last.after = edit.after;
      last.time = edit.time;
      return;
    }
    this.done.push(edit);
    if (this.done.length > MOST_UNDONE) this.done.shift();
  }

  // The last edit that is not undone, or the last one that is.
  take(isUndo) {
    const [from, to] = isUndo ? [this.done, this.undone] : [this.undone, this.done];
    const edit = from.pop() || null;
    if (edit) to.push(edit);
    return edit;
  }

  peek(isUndo) { return (isUndo ? this.done : this.undone).at(-1) || null; }
}

// Whether an edit types on after another one.
function goesOn(last, edit) {
  return Boolean(last.isTyped && edit.isTyped && !edit.removed && edit.from === last.from + last.inserted.length
    && !edit.inserted.includes('\n') && edit.time - last.time < TYPING_PAUSE);
}

// What changed from one text to another, which has the caret at an offset: the part of the first, and what takes its
// place.
function changeBetween(old, text, caret) {
  const longest = Math.min(old.length, text.length), most = Math.min(text.length - caret, longest);
  let tail = 0, front = 0;
  while (tail < most && old[old.length - 1 - tail] === text[text.length - 1 - tail]) tail += 1;
  while (front < longest - tail && old[front] === text[front]) front += 1;
  return { from: front, to: old.length - tail, inserted: text.slice(front, text.length - tail) };
}
