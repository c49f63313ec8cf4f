// What a word of the specification names: a box beside the pointer says it, and a bar above the editor renames it.

const HOVER_PAUSE = 300;        // milliseconds for which the pointer is on a word
const PART_OF_WORD = /[A-Za-z0-9_'-]/;

// The word around an offset, or null.
function wordAround(text, at) {
  let from = at, to = at;
  while (from > 0 && PART_OF_WORD.test(text[from - 1])) from -= 1;
  while (to < text.length && PART_OF_WORD.test(text[to])) to += 1;
  return from < to ? { from, to, name: text.slice(from, to) } : null;
}

// What a use names, in words: its kind and its sorts.
function wordsOfUse({ kind, name, of }) {
  if (kind === 'undeclared') return name;
  return of ? `${kind} ${name} : ${of}` : `${kind} ${name}`;
}

class Namer {
  // `runner` does the jobs of naming alone.
  constructor(editor, runner) {
    Object.assign(this, { editor, runner, pointed: null, timer: 0, asked: null });
    this.makeBox();
    this.makeBar();
    this.listen();
  }

  // What the word at an offset names; nothing if the text has changed meanwhile, or something else was asked.
  async ask(at, word = null) {
    const { text } = this.editor, told = await this.runner.run('uses', { text, at, word });
    return this.editor.text === text ? told : null;
  }

  placeOf(word) {
    const { line, column } = this.editor.model.placeOf(word.from);
    return `line ${line}, column ${column}`;
  }

  wordsOfPlaces({ use, places }) {
    if (!use.declared) return 'not declared';
    return `declared at ${this.placeOf(use.declared)}; ${plural(places.length, 'location')}`;
  }

  // The box

  makeBox() {
    this.what = element('code');
    this.where = element('div', { className: 'hint' });
    this.box = element('div', { className: 'told', hidden: true }, this.what, this.where);
    this.box.setAttribute('role', 'tooltip');
    document.body.append(this.box);
  }

  point({ clientX, clientY, buttons }) {
    const { editor } = this, at = buttons ? null : editor.offsetAt(clientX, clientY);
    const word = at !== null && PART_OF_WORD.test(editor.text[at]) ? wordAround(editor.text, at) : null;
    if (word && this.pointed && word.from === this.pointed.from) return;
    this.leave();
    if (!word) return;
    this.pointed = word;
    this.timer = setTimeout(() => this.tell(word), HOVER_PAUSE);
  }

  async tell(word) {
    const told = await this.ask(word.from);
    if (!told || !told.use || this.pointed !== word) return;
    this.what.textContent = wordsOfUse(told.use);
    this.where.textContent = this.wordsOfPlaces(told);
    this.show(word);
  }

  // Shows the box below a word, or above it if there is no room, within the window.
  show(word) {
    const { box, editor } = this, { left, bottom, top } = editor.boxOf(word.from);
    box.hidden = false;
    const { width, height } = box.getBoundingClientRect();
    box.style.left = `${Math.max(0, Math.min(left, document.documentElement.clientWidth - width))}px`;
    box.style.top = `${bottom + height <= innerHeight ? bottom : Math.max(0, top - height)}px`;
  }

  leave() {
    clearTimeout(this.timer);
    this.pointed = null;
    this.box.hidden = true;
  }

  // The bar

  makeBar() {
    const button = (name, does, className = '') => {
      const made = element('button', { type: 'button', className }, name);
      made.addEventListener('click', does);
      return made;
    };
    this.said = element('span', { className: 'hint' });
    this.said.setAttribute('role', 'status');
    this.input = element('input', { spellcheck: false, autocomplete: 'off', ariaLabel: 'New name' });
    this.go = button('Declaration', () => this.showDeclaration());
    this.change = button('Rename', () => this.rename(), 'first');
    this.bar = element('div', { className: 'bar rename', hidden: true }, this.said, this.input, this.change, this.go,
      button('Close', () => this.close()));
    this.editor.place.prepend(this.bar);
  }

  listen() {
    const { editor, bar, box } = this, { area, sheet } = editor;
    area.addEventListener('mousemove', (event) => this.point(event));
    area.addEventListener('mouseleave', ({ relatedTarget }) => { if (!box.contains(relatedTarget)) this.leave(); });
    box.addEventListener('mouseleave', () => this.leave());
    for (const it of ['edited', 'keydown', 'mousedown']) area.addEventListener(it, () => this.leave());
    sheet.addEventListener('scroll', () => this.leave());
    window.addEventListener('scroll', () => this.leave());
    document.addEventListener('keydown', ({ key }) => { if (key === 'Escape') this.leave(); });
    area.addEventListener('edited', () => { if (!bar.hidden) this.hide(); });
    area.addEventListener('keydown', (event) => {
      if (event.key !== 'F2') return;
      event.preventDefault();
      this.open();
    });
    bar.addEventListener('keydown', (event) => this.takeKey(event));
  }

  takeKey(event) {
    if (event.key === 'Escape') this.close();
    else if (event.key === 'Enter' && event.target === this.input && !event.ctrlKey) this.rename();
    else return;
    event.preventDefault();
  }

  // Opens the bar for the word at the caret, at once, so that no key comes to the text.
  async open() {
    const { editor } = this, at = editor.selection.head, word = wordAround(editor.text, at);
    this.leave();
    Object.assign(this, { asked: null, at });
    this.bar.hidden = false;
    this.input.value = word ? word.name : '';
    this.said.textContent = '';
    this.enable(false);
    this.input.select();
    this.input.focus();
    const told = await this.ask(at);
    if (!told || this.bar.hidden) return;
    this.said.textContent = this.wordsOfAnswer(told);
    if (!told.use) return;
    this.asked = told;
    this.enable(Boolean(told.use.declared));
    editor.mark('naming', told.places.map((from) => ({ from, to: from + told.use.name.length, kind: 'sought' })));
  }

  wordsOfAnswer(told) {
    if (told.broken) return `The run stopped: ${told.broken}.`;
    if (told.isOutside) return 'The specification is outside the grammar: correct it first.';
    if (!told.use) return 'There is no name at the caret.';
    return `${wordsOfUse(told.use)}, ${this.wordsOfPlaces(told)}`;
  }

  enable(isGood) { for (const it of [this.go, this.change]) it.disabled = !isGood; }

  showDeclaration() {
    const { declared } = this.asked.use;
    this.hide();
    this.editor.select(declared);
  }

  // Asks once more, now with the name, so that one need not wait for the first answer.
  async rename() {
    const word = this.input.value, told = await this.ask(this.at, word);
    if (!told || this.bar.hidden) return;
    if (told.use && word === told.use.name) { this.close(); return; }
    const isGood = Boolean(told.use && told.use.declared && !told.refused);
    this.input.setAttribute('aria-invalid', String(!isGood));
    if (isGood) this.replace(told, word);
    else this.said.textContent = told.refused || this.wordsOfAnswer(told);
  }

  // Puts another word in place of all uses of a name, as one change, and leaves the caret after the one it was at.
  replace({ use, places }, word) {
    const { editor } = this, { length } = use.name, from = places[0], to = places.at(-1) + length;
    const pieces = places.map((at, i) => word + editor.text.slice(at + length, places[i + 1] ?? to));
    const before = places.filter((it) => it < use.from).length;
    this.close();
    const after = caretAt(use.from + before * (word.length - length) + word.length);
    editor.edit(from, to, pieces.join(''), { after });
    editor.update();
    editor.revealCaret();
    editor.tell();
  }

  hide() {
    this.bar.hidden = true;
    this.input.removeAttribute('aria-invalid');
    this.editor.mark('naming', []);
  }

  close() {
    this.hide();
    this.editor.area.focus();
  }
}
