// A bar above an editor that finds a text in it.

const MOST_SOUGHT = 10000;      // places that are counted

// The offsets of a text in another one.
function placesOf(text, sought) {
  const places = [];
  if (!sought) return places;
  let at = text.indexOf(sought);
  while (at >= 0 && places.length < MOST_SOUGHT) {
    places.push(at);
    at = text.indexOf(sought, at + sought.length);
  }
  return places;
}

class Finder {
  constructor(editor) {
    this.editor = editor;
    this.places = [];
    this.input = element('input', { spellcheck: false, ariaLabel: 'Find' });
    this.said = element('span', { className: 'hint', role: 'status' });
    this.said.setAttribute('role', 'status');
    const button = (name, does) => {
      const made = element('button', { type: 'button' }, name);
      made.addEventListener('click', does);
      return made;
    };
    this.bar = element('div', { className: 'bar find', hidden: true }, this.input, this.said,
      button('Previous', () => this.step(-1)), button('Next', () => this.step(1)), button('Close', () => this.close()));
    editor.place.prepend(this.bar);
    this.listen();
  }

  listen() {
    const { editor } = this;
    editor.area.addEventListener('keydown', (event) => {
      if ((event.ctrlKey || event.metaKey) && event.key.toLowerCase() === 'f') { event.preventDefault(); this.open(); }
    });
    editor.area.addEventListener('edited', () => { if (!this.bar.hidden) this.seek(); });
    this.input.addEventListener('input', () => { this.seek(); this.show(this.nextFrom(this.from)); });
    this.bar.addEventListener('keydown', (event) => this.takeKey(event));
  }

  takeKey(event) {
    if (event.key === 'Escape') this.close();
    else if (event.key === 'Enter' && event.target === this.input && !event.ctrlKey) this.step(event.shiftKey ? -1 : 1);
    else return;
    event.preventDefault();
  }

  // What is selected on one line is sought first.
  open() {
    const { anchor, head } = this.editor.selection, from = Math.min(anchor, head), to = Math.max(anchor, head);
    const selected = this.editor.text.slice(from, to);
    this.from = from;
    this.bar.hidden = false;
    if (selected && !selected.includes('\n')) this.input.value = selected;
    this.input.select();
    this.input.focus();
    this.seek();
  }

  close() {
    this.bar.hidden = true;
    this.editor.mark('sought', []);
    this.editor.area.focus();
  }

  seek() {
    const { value } = this.input;
    this.places = placesOf(this.editor.text, value);
    this.editor.mark('sought', this.places.map((from) => ({ from, to: from + value.length, kind: 'sought' })));
    this.tell();
  }

  tell() {
    const { anchor, head } = this.editor.selection, { length } = this.places;
    const at = this.places.indexOf(Math.min(anchor, head));
    const all = length === MOST_SOUGHT ? `the first ${length.toLocaleString('en')}` : length.toLocaleString('en');
    if (!this.input.value) this.said.textContent = '';
    else this.said.textContent = length ? `${at < 0 ? '' : `${(at + 1).toLocaleString('en')} of `}${all}` : 'not found';
  }

  nextFrom(at) { return Math.max(0, this.places.findIndex((it) => it >= at)); }

  // Goes to the next place, or to the one before, and round.
  step(direction) {
    const { anchor, head } = this.editor.selection, { length } = this.places;
    const next = direction > 0 ? this.nextFrom(Math.max(anchor, head)) : this.nextFrom(Math.min(anchor, head)) - 1;
    if (length) this.show((next + length) % length);
  }

  // Selects a place, and leaves the focus where it is.
  show(i) {
    const from = this.places[i];
    if (from === undefined) return;
    this.editor.selection = { anchor: from, head: from + this.input.value.length };
    this.editor.reveal({ from });
    this.editor.showSelection();
    this.tell();
  }
}
