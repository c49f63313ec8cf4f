// A text area over a coloured copy of its text, with line numbers and marked parts. Of a long text the area has only a
// window, the rows around those that are seen: a browser takes too long for an area with all of it. So the text, the
// selection and what can be undone are kept here.

const WHOLE = 20000;          // characters of a text that the area has as a whole, and of a window
const MOST_DRAWN = 60;        // rows of a text that are drawn as a whole
const MARGIN = 50;            // rows of a window before and after those that are seen
const LEAST_MARGIN = 5;
const OVERSCAN = 20;          // rows that are drawn before and after those that are seen
const MOST_SKIPPED = 6;       // rows that may have gone where others stay
const SPARE = 1;              // columns to the right of the longest row
const TAB = 8;

function element(name, properties = {}, ...children) {
  const made = Object.assign(document.createElement(name), properties);
  made.append(...children);
  return made;
}

function caretAt(at) { return { anchor: at, head: at }; }

// The column after a character; one outside of ASCII may take two.
function columnAfter(column, character) {
  return column + (character === '\t' ? TAB - (column % TAB) : 1 + (character > '\x7f'));
}

// The columns that a row takes.
function columnsOf(row) {
  let columns = 0;
  for (const it of row) columns = columnAfter(columns, it);
  return columns;
}

class Editor {
  // `colours` gives what of the text has a colour, or is null.
  constructor(place, colours) {
    this.colours = colours;
    this.model = new Rows('');
    this.history = new Edits();
    this.reasons = new Map();
    this.selection = caretAt(0);
    this.window = { from: 0, to: 1, starts: [0], text: '' };
    this.shown = { start: 0, end: 0 };    // the selection that was given to the area
    this.drawn = { from: 0, to: 0 };
    this.rowsDrawn = [];                  // each row's node, and what it shows
    this.rowAbove = 0;                    // the first of them
    this.numbers = '';
    this.isUpdated = false;
    this.build(place);
    this.measure();
    this.listen();
    this.update();
  }

  build(place) {
    this.lines = element('div');
    this.copy = element('pre', { ariaHidden: 'true' });
    this.area = element('textarea', { spellcheck: false, autocomplete: 'off', autocapitalize: 'off', wrap: 'off' });
    this.area.setAttribute('aria-labelledby', place.dataset.name);
    this.space = element('div', { className: 'space' }, this.copy, this.area);
    this.sheet = element('div', { className: 'sheet', tabIndex: -1 }, this.space);
    this.place = place;
    place.append(element('div', { className: 'numbers', ariaHidden: 'true' }, this.lines), this.sheet);
  }

  measure() {
    const style = getComputedStyle(this.area), probe = element('span', {}, '0'.repeat(100));
    this.copy.append(probe);
    this.columnWidth = probe.getBoundingClientRect().width / 100 || 8;
    probe.remove();
    this.rowHeight = parseFloat(style.lineHeight) || 21;
    this.padding = { top: parseFloat(style.paddingTop), left: parseFloat(style.paddingLeft) };
  }

  listen() {
    const { area, sheet } = this;
    area.addEventListener('input', (event) => this.takeInput(event));
    area.addEventListener('beforeinput', (event) => this.beforeInput(event));
    area.addEventListener('keydown', (event) => this.takeKey(event));
    area.addEventListener('paste', (event) => this.paste(event));
    area.addEventListener('copy', (event) => this.copySelection(event));
    area.addEventListener('cut', (event) => { if (this.copySelection(event)) this.putSelection(''); });
    // the area has the size of its rows, and what is around it scrolls
    area.addEventListener('scroll', () => { area.scrollTop = 0; area.scrollLeft = 0; });
    for (const it of ['select', 'keyup', 'mouseup', 'focus']) area.addEventListener(it, () => this.readSelection());
    document.addEventListener('selectionchange', () => this.readSelection());
    sheet.addEventListener('scroll', () => this.look());
    new ResizeObserver(() => this.look()).observe(sheet);
  }

  get text() { return this.model.text; }

  // Another text takes the place of all; it can be undone.
  set text(text) { this.replaceAll(text); }

  replaceAll(text, group = null) {
    if (text === this.text) return;
    this.edit(0, this.model.length, text, { after: caretAt(0), group });
    this.sheet.scrollTop = 0;
    this.sheet.scrollLeft = 0;
    this.update();
  }

  // Edits, and what follows from them

  edit(from, to, inserted, { after = caretAt(from + inserted.length), group = null, isTyped = false } = {}) {
    const removed = this.text.slice(from, to), before = this.selection, time = performance.now();
    this.history.note({ from, removed, inserted, before, after, group, isTyped, time });
    this.change(from, to, inserted, after);
  }

  change(from, to, inserted, after) {
    const { rows } = this.model;
    this.model.replace(from, to, inserted);
    if (this.colours) this.colours.change(from);
    this.reasons.clear();
    this.selection = after;
    this.window.to = Math.max(this.window.from + 1, this.window.to + this.model.rows - rows);
  }

  // Undoes an edit, or makes one again that was undone.
  undo(isUndo) {
    const edit = this.history.take(isUndo);
    if (!edit) return;
    const { from, removed, inserted, before, after } = edit;
    const [old, text] = isUndo ? [inserted, removed] : [removed, inserted];
    this.change(from, from + old.length, text, isUndo ? before : after);
    this.update();
    this.revealCaret();
    this.area.dispatchEvent(new CustomEvent('undone', { detail: { edit, isUndo } }));
    this.tell();
  }

  // Puts a text in place of the selection.
  putSelection(text) {
    const { anchor, head } = this.selection;
    this.edit(Math.min(anchor, head), Math.max(anchor, head), text);
    this.update();
    this.revealCaret();
    this.tell();
  }

  tell() { this.area.dispatchEvent(new Event('input', { bubbles: true })); }

  // What a browser changed in the area.
  takeInput({ inputType = '' }) {
    const { value, selectionEnd } = this.area;
    if (value === this.window.text) return;
    const change = changeBetween(this.window.text, value, selectionEnd);
    let from = this.offsetOf(change.from), to = this.offsetOf(change.to);
    // the end of a row that is no end of a line is no character
    if (from === to && !change.inserted) [from, to] = /Forward/.test(inputType) ? [from, to + 1] : [from - 1, to];
    const isTyped = inputType === 'insertText';
    this.edit(Math.max(0, from), Math.min(to, this.model.length), change.inserted, { isTyped });
    this.update();
  }

  // What the area does not do itself: to undo, and to change what its window does not show.
  beforeInput(event) {
    const { inputType, data } = event, undoes = { historyUndo: true, historyRedo: false }[inputType];
    if (undoes !== undefined) { event.preventDefault(); this.undo(undoes); return; }
    if (this.isShown() || !event.cancelable) return;
    event.preventDefault();
    const { anchor, head } = this.selection;
    if (/^delete/.test(inputType) && anchor === head) {
      const at = /Forward/.test(inputType) ? head + 1 : head - 1;
      this.selection = { anchor: head, head: Math.max(0, Math.min(at, this.model.length)) };
    }
    this.putSelection(/^insertLineBreak|^insertParagraph/.test(inputType) ? '\n' : data || '');
  }

  paste(event) {
    const text = event.clipboardData.getData('text/plain');
    event.preventDefault();
    if (text) this.putSelection(text.replace(/\r\n?/g, '\n'));
  }

  copySelection(event) {
    const { anchor, head } = this.selection;
    if (anchor === head) return false;
    event.clipboardData.setData('text/plain', this.text.slice(Math.min(anchor, head), Math.max(anchor, head)));
    event.preventDefault();
    return true;
  }

  // Keys that the area alone would take for its window

  takeKey(event) {
    const { key, ctrlKey, metaKey, altKey, shiftKey } = event, isCommand = (ctrlKey || metaKey) && !altKey;
    const does = isCommand ? this.command(key, shiftKey) : this.movement(key, shiftKey, altKey);
    if (does) { event.preventDefault(); does(); return; }
    if (!isCommand && !/^(Shift|Control|Alt|Meta|Tab|Escape)/.test(key)) this.bringBack(event);
  }

  command(key, isShift) {
    switch (key.toLowerCase()) {
      case 'z': return () => this.undo(!isShift);
      case 'y': return () => this.undo(false);
      case 'a': return () => this.moveTo({ anchor: 0, head: this.model.length }, false);
      case 'home': return () => this.moveHead(0, isShift);
      case 'end': return () => this.moveHead(this.model.length, isShift);
      default: return null;
    }
  }

  movement(key, isShift, isAlt) {
    if (isAlt || (key !== 'PageUp' && key !== 'PageDown')) return null;
    return () => this.movePage(key === 'PageUp' ? -1 : 1, isShift);
  }

  movePage(direction, isShift) {
    const { model } = this, { first, last } = this.visibleRows(), { head } = this.selection, row = model.rowOf(head);
    const to = Math.max(0, Math.min(row + direction * Math.max(1, last - first - 2), model.rows - 1));
    this.sheet.scrollTop += (to - row) * this.rowHeight;
    this.moveHead(Math.min(model.starts[to] + head - model.starts[row], model.endOf(to)), isShift);
  }

  moveHead(head, isShift) { this.moveTo({ anchor: isShift ? this.selection.anchor : head, head }, true); }

  moveTo(selection, isRevealed) {
    this.selection = selection;
    if (isRevealed) this.revealCaret();
    this.look();
    this.showSelection();
    this.area.dispatchEvent(new Event('moved'));
  }

  // A selection that the window does not show as a whole comes back into it, as far as can be, before a key acts on it.
  bringBack(event) {
    if (this.isShown()) return;
    const { anchor, head } = this.selection, isMovement = /^(Arrow|Home|End)/.test(event.key);
    if (anchor !== head && isMovement && !event.shiftKey) {
      event.preventDefault();
      this.moveHead(/Left|Up|Home/.test(event.key) ? Math.min(anchor, head) : Math.max(anchor, head), false);
    } else if (anchor === head || isMovement) this.moveTo(this.selection, true);
  }

  // Marks

  get marks() { return [...this.reasons.values()].flat(); }

  marksFor(reason) { return this.reasons.get(reason) || []; }

  // Marks parts of the text, each `{from, to, kind}`, in place of what was marked for the same reason. The kind is a
  // class of the line number too.
  mark(reason, marks) {
    if (!marks.length && !this.marksFor(reason).length) return;
    this.reasons.set(reason, marks);
    if (!this.isUpdated) this.draw();
  }

  // Selects a part and shows it.
  select({ from, to }) {
    this.area.focus({ preventScroll: true });
    this.reveal({ from });
    this.moveTo({ anchor: from, head: to }, false);
    this.place.scrollIntoView({ block: 'nearest' });
  }

  // The selection

  // Whether the window has all of the selection.
  isShown() {
    const { anchor, head } = this.selection;
    return [anchor, head].every((it) => this.clamped(it) === it);
  }

  get limits() {
    const { from, to } = this.window;
    return [this.model.starts[from], this.model.endOf(to - 1)];
  }

  clamped(at) {
    const [from, to] = this.limits;
    return Math.max(from, Math.min(at, to));
  }

  // The offset in the text of one in the area, and the other way round.
  offsetOf(position) {
    const { starts, from } = this.window;
    let row = starts.length - 1;
    while (starts[row] > position) row -= 1;
    return Math.min(this.model.starts[from + row] + position - starts[row], this.model.endOf(from + row));
  }

  positionOf(offset) {
    const at = this.clamped(offset), { starts, from, to } = this.window;
    const row = Math.min(this.model.rowOf(at), to - 1) - from;
    return starts[row] + at - this.model.starts[from + row];
  }

  showSelection() {
    const { anchor, head } = this.selection, { area } = this;
    const [start, end] = [Math.min(anchor, head), Math.max(anchor, head)].map((it) => this.positionOf(it));
    area.setSelectionRange(start, end, head < anchor ? 'backward' : 'forward');
    this.shown = { start, end };
  }

  // What is selected in the area, if that is not what was given to it. An end that was beyond the window, and has not
  // moved, is there still.
  readSelection() {
    const { area, shown, selection } = this;
    const { selectionStart: start, selectionEnd: end } = area;
    if (document.activeElement !== area || area.value !== this.window.text) return;
    if (start === shown.start && end === shown.end) return;
    const isBackward = area.selectionDirection === 'backward';
    const [anchor, head] = isBackward ? [end, start] : [start, end];
    const isFar = start !== end && this.clamped(selection.anchor) !== selection.anchor
      && this.positionOf(selection.anchor) === anchor;
    this.selection = { anchor: isFar ? selection.anchor : this.offsetOf(anchor), head: this.offsetOf(head) };
    this.shown = { start, end };
    this.area.dispatchEvent(new Event('moved'));
  }

  // What is seen

  visibleRows() {
    const { scrollTop, clientHeight } = this.sheet, { rows } = this.model;
    const first = Math.floor((scrollTop - this.padding.top) / this.rowHeight);
    const last = Math.ceil((scrollTop + clientHeight) / this.rowHeight);
    return { first: Math.max(0, Math.min(first, rows - 1)), last: Math.max(1, Math.min(last, rows)) };
  }

  topOf(at) { return this.model.rowOf(at) * this.rowHeight; }

  // Where the left side of a character is.
  leftOf(at) {
    const row = this.model.rowOf(at);
    return this.padding.left + columnsOf(this.text.slice(this.model.starts[row], at)) * this.columnWidth;
  }

  // The offset of the character at a point of the window, or null beside the text.
  offsetAt(x, y) {
    const { left, top } = this.space.getBoundingClientRect(), { model, padding } = this;
    const row = Math.floor((y - top - padding.top) / this.rowHeight);
    const column = (x - left - padding.left) / this.columnWidth;
    if (row < 0 || row >= model.rows || column < 0) return null;
    const [from, to] = [model.starts[row], model.endOf(row)];
    let columns = 0;
    for (let at = from; at < to; at++) {
      columns = columnAfter(columns, this.text[at]);
      if (columns > column) return at;
    }
    return null;
  }

  // Where the left side of a character is in the window.
  boxOf(at) {
    const { left, top } = this.space.getBoundingClientRect(), above = top + this.padding.top + this.topOf(at);
    return { left: left + this.leftOf(at), top: above, bottom: above + this.rowHeight };
  }

  // Shows a part, if it is not seen.
  reveal({ from }) {
    const { sheet, rowHeight, columnWidth } = this, top = this.topOf(from), left = this.leftOf(from);
    const isSeen = top >= sheet.scrollTop && top + 2 * rowHeight <= sheet.scrollTop + sheet.clientHeight;
    if (!isSeen) sheet.scrollTop = Math.max(0, top - 2 * rowHeight);
    const isBeside = left < sheet.scrollLeft || left + 4 * columnWidth > sheet.scrollLeft + sheet.clientWidth;
    if (isBeside) sheet.scrollLeft = left < sheet.clientWidth ? 0 : left - sheet.clientWidth / 2;
    this.look();
  }

  revealCaret() {
    const { sheet, rowHeight } = this, top = this.topOf(this.selection.head), bottom = top + 2 * rowHeight;
    if (top < sheet.scrollTop) sheet.scrollTop = top;
    else if (bottom > sheet.scrollTop + sheet.clientHeight) sheet.scrollTop = bottom - sheet.clientHeight;
    this.reveal({ from: this.selection.head });
  }

  // After scrolling: other rows may have to be in the window, and to be drawn.
  look() {
    const { first, last } = this.visibleRows(), { drawn, window } = this;
    if (!this.hasRows(window, first, last, LEAST_MARGIN)) {
      this.setWindow(this.windowAround(first, last));
      this.showSelection();
    }
    if (!this.hasRows(drawn, first, last, 0)) this.draw();
    else this.follow();
  }

  // After the text has changed.
  update() {
    const { model, window } = this, { rowHeight, padding } = this;
    this.space.style.height = `${model.rows * rowHeight + 2 * padding.top}px`;
    const { first, last } = this.visibleRows(), { value, selectionStart, selectionEnd } = this.area;
    this.setWindow(this.isEnough(window, first, last) ? window : this.windowAround(first, last));
    const isAsWas = this.area.value === value && this.positionOf(this.selection.head) === selectionEnd
      && selectionStart === selectionEnd && this.selection.anchor === this.selection.head;
    if (isAsWas) this.shown = { start: selectionStart, end: selectionEnd };
    else this.showSelection();
    // who marks parts of the text does so before it is drawn
    this.isUpdated = true;
    this.area.dispatchEvent(new Event('edited'));
    this.isUpdated = false;
    this.draw();
  }

  // Whether some rows have those that are seen, and some more.
  hasRows({ from, to }, first, last, more) {
    return from <= Math.max(0, first - more) && Math.min(this.model.rows, last + more) <= to;
  }

  // Whether a window can stay after its text has changed.
  isEnough(window, first, last) {
    const { model } = this, { from, to } = window;
    if (to > model.rows || !this.hasRows(window, first, last, LEAST_MARGIN)) return false;
    if (model.length <= WHOLE) return from === 0 && to === model.rows;
    return model.endOf(to - 1) - model.starts[from] <= 2 * WHOLE;
  }

  windowAround(first, last) {
    const { model } = this, { rows } = model;
    if (model.length <= WHOLE) return { from: 0, to: rows };
    let margin = MARGIN, from, to;
    do {
      from = Math.max(0, first - margin);
      to = Math.min(rows, last + margin);
      margin = Math.floor(margin / 2);
    } while (margin >= LEAST_MARGIN && model.endOf(to - 1) - model.starts[from] > WHOLE);
    return { from, to };
  }

  // Gives the area the text of some rows.
  setWindow({ from, to }) {
    const { area, model, rowHeight, padding } = this, starts = [], texts = [];
    let at = 0;
    for (let row = from; row < to; row++) {
      starts.push(at);
      texts.push(model.text.slice(model.starts[row], model.endOf(row)));
      at += texts.at(-1).length + 1;
    }
    const text = texts.join('\n');
    this.window = { from, to, starts, text };
    if (area.value !== text) area.value = text;
    area.style.top = `${from * rowHeight}px`;
    area.style.height = `${(to - from + 1) * rowHeight + padding.top}px`;
    const isPlain = !/[\t\x80-\uffff]/.test(text);
    const columns = texts.reduce((most, it) => Math.max(most, isPlain ? it.length : columnsOf(it)), 0);
    const width = `calc(${columns + SPARE}ch + ${2 * padding.left}px)`;
    if (width !== this.width) this.space.style.width = width;
    this.width = width;
  }

  follow() {
    const top = this.drawn.from * this.rowHeight - this.sheet.scrollTop;
    this.lines.style.transform = `translateY(${top}px)`;
  }

  // Draws the rows that are seen, and some around these.
  draw() {
    const { first, last } = this.visibleRows(), { rows } = this.model, isWhole = rows <= MOST_DRAWN;
    const from = isWhole ? 0 : Math.max(0, first - OVERSCAN), to = isWhole ? rows : Math.min(rows, last + OVERSCAN);
    this.drawn = { from, to };
    const isBad = String(this.marks.some((it) => it.kind === 'bad'));
    if (this.area.getAttribute('aria-invalid') !== isBad) this.area.setAttribute('aria-invalid', isBad);
    this.drawText(from, to);
    this.drawNumbers(from, to);
    this.follow();
  }

  // The colours of a part, if they are known at once; else they are drawn later.
  partsBetween(from, to) {
    const { colours, text } = this;
    if (!colours) return [];
    if (colours.reaches(text, from)) return colours.partsIn(text, from, to);
    clearTimeout(this.later);
    this.later = setTimeout(() => this.draw(), 0);
    return [];
  }

  // Draws rows, of which those stay in the page that are as they were.
  drawText(first, last) {
    const { model, copy } = this, from = model.starts[first], to = model.endOf(last - 1);
    const rows = this.piecesByRow(first, last, this.partsBetween(from, to).concat(this.markedBetween(from, to)));
    for (; this.rowsDrawn.length && this.rowAbove < first; this.rowAbove++) this.rowsDrawn.shift().made.remove();
    let kept = 0;
    const drawn = rows.map((pieces) => {
      const key = keyOf(pieces), at = this.rowsDrawn.slice(kept, kept + MOST_SKIPPED).findIndex((it) => it.key === key);
      if (at >= 0) {
        for (const it of this.rowsDrawn.slice(kept, kept + at)) it.made.remove();
        kept += at + 1;
        return this.rowsDrawn[kept - 1];
      }
      const made = element('div', {}, ...pieces.map(({ text, names }) => (
        names ? element('span', { className: names }, text) : text)), '\n');
      copy.insertBefore(made, this.rowsDrawn[kept] ? this.rowsDrawn[kept].made : null);
      return { key, made };
    });
    for (const it of this.rowsDrawn.slice(kept)) it.made.remove();
    Object.assign(this, { rowsDrawn: drawn, rowAbove: first });
    copy.style.top = `${first * this.rowHeight}px`;
  }

  markedBetween(from, to) {
    const near = this.marks.filter((it) => it.from <= to && it.to >= from);
    return near.map((it) => ({ from: it.from, to: it.to, name: `${it.kind}-place` }));
  }

  // The pieces of each row, `{text, names}`.
  piecesByRow(first, last, parts) {
    const { model } = this, sorted = parts.sort((a, b) => a.from - b.from), rows = [];
    let next = 0, open = [];
    for (let row = first; row < last; row++) {
      const from = model.starts[row], to = model.endOf(row);
      open = open.filter((it) => it.to > from);
      while (next < sorted.length && sorted[next].from <= to) open.push(sorted[next++]);
      rows.push(piecesOf(model.text, from, to, open));
    }
    return rows;
  }

  drawNumbers(first, last) {
    const { model } = this, kinds = new Map(), [from, to] = [model.starts[first], model.endOf(last - 1)];
    for (const { from: at, kind } of this.marks) {
      if (at < from || at > to) continue;
      const row = model.rowOf(at);
      kinds.set(row, kinds.has(row) ? `${kinds.get(row)} ${kind}` : kind);
    }
    const pieces = [];
    let plain = '', line = model.lineOf(first) - model.startsLine(first);
    for (let row = first; row < last; row++) {
      const isLine = model.startsLine(row);
      line += isLine;
      const shown = isLine ? `${line}` : '·';
      if (!kinds.has(row)) { plain += `${shown}\n`; continue; }
      pieces.push(plain, element('span', { className: kinds.get(row) }, shown), '\n');
      plain = '';
    }
    const numbers = pieces.map((it) => it.outerHTML || it).concat(plain).join('');
    if (numbers === this.numbers) return;
    this.numbers = numbers;
    this.lines.style.minWidth = `${String(model.lineOf(model.rows - 1)).length}ch`;
    this.lines.replaceChildren(...pieces, plain);
  }
}

// The pieces of a row that have the same names, of parts that may go beyond it. At the end of the text is nothing that
// could be marked.
function piecesOf(text, from, to, parts) {
  const inside = parts.map((it) => ({ from: Math.max(from, it.from), to: Math.min(to, it.to), name: it.name }));
  const ends = [...new Set(inside.flatMap((it) => [it.from, it.to]).concat(from, to))].sort((a, b) => a - b);
  const pieces = ends.slice(0, -1).map((at, i) => ({
    text: text.slice(at, ends[i + 1]),
    names: inside.filter((it) => it.from <= at && it.to > at).map((it) => it.name).join(' '),
  }));
  const atEnd = parts.filter((it) => it.from === text.length && it.to === to);
  return pieces.concat(atEnd.map((it) => ({ text: '␃', names: it.name })));
}

function keyOf(pieces) { return pieces.map(({ text, names }) => `${names}\t${text}`).join('\n'); }
