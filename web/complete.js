// Completion of declared words: Ctrl-Space lists those that begin with the word before the caret.

const MOST_OFFERED = 100;
const SECTION_WORDS = ['SORTS', 'CONS', 'OPNS', 'VARS', 'RULES', 'EVAL', 'END-SPEC', 'if', 'and-if'];
const KINDS_BY_SECTION = { SORTS: ['sort'], CONS: ['sort'], OPNS: ['sort'], VARS: ['sort'] };

// Names as lines tell them, and the reserved words.
function namesIn(lines) {
  const declared = lines.split('\n').filter((it) => it).map((it) => {
    const [name, kind, of] = it.split('\t');
    return { name, kind, of };
  });
  return declared.concat(SECTION_WORDS.map((name) => ({ name, kind: 'reserved', of: '' })));
}

// The names that begin with a word, but for itself: first those of kinds that may stand there.
function completionsOf(names, word, kinds) {
  const low = word.toLowerCase(), seen = new Set([word]);
  const rank = ({ name, kind }) => (name.startsWith(word) ? 0 : 2) + (!kinds || kinds.includes(kind) ? 0 : 1);
  return names.filter(({ name }) => name.toLowerCase().startsWith(low) && !seen.has(name) && seen.add(name))
    .sort((a, b) => rank(a) - rank(b) || a.name.localeCompare(b.name)).slice(0, MOST_OFFERED);
}

// The section that an offset is in.
function sectionAt(text, at) {
  const before = text.slice(0, at), words = /^[^%\n]*?\b(SORTS|CONS|OPNS|VARS|RULES|EVAL)\b/gm;
  return [...before.matchAll(words)].at(-1)?.[1] || null;
}

class Completer {
  // `namesThere` gives the names; in `isSpec` kinds are chosen by sections.
  constructor(editor, namesThere, isSpec) {
    Object.assign(this, { editor, namesThere, isSpec, offers: [], chosen: 0 });
    const id = `offers-${editor.place.id}`;
    this.list = element('ul', { className: 'offers', id, hidden: true });
    this.list.setAttribute('role', 'listbox');
    this.list.setAttribute('aria-label', 'Completions');
    editor.space.append(this.list);
    editor.area.setAttribute('aria-autocomplete', 'list');
    editor.area.setAttribute('aria-controls', id);
    editor.area.addEventListener('keydown', (event) => this.takeKey(event), true);
    for (const it of ['blur', 'moved']) editor.area.addEventListener(it, () => this.close());
    editor.area.addEventListener('input', () => { if (!this.list.hidden) this.open(); });
    this.list.addEventListener('mousedown', (event) => this.takeClick(event));
  }

  // The word before the caret.
  get word() {
    const { head } = this.editor.selection, before = this.editor.text.slice(Math.max(0, head - LONGEST_ROW), head);
    return /[A-Za-z0-9_'-]*$/.exec(before)[0];
  }

  takeKey(event) {
    const { key } = event;
    if (key === ' ' && event.ctrlKey) this.begin();
    else if (this.list.hidden) return;
    else if (key === 'Escape') this.close();
    else if (key === 'ArrowDown' || key === 'ArrowUp') this.choose(this.chosen + (key === 'ArrowDown' ? 1 : -1));
    else if ((key === 'Enter' && !event.ctrlKey) || key === 'Tab') this.accept(this.chosen);
    else return;
    event.preventDefault();
    event.stopImmediatePropagation();
  }

  // One that is the only one is put in at once.
  begin() {
    this.open();
    if (this.offers.length === 1) this.accept(0);
  }

  open() {
    const { editor, word } = this, { head } = editor.selection;
    const kinds = this.isSpec ? KINDS_BY_SECTION[sectionAt(editor.text, head)] : ['operator', 'constructor'];
    this.offers = completionsOf(this.namesThere(), word, kinds || ['operator', 'constructor', 'variable']);
    if (!this.offers.length) { this.close(); return; }
    this.list.replaceChildren(...this.offers.map((it, i) => this.offerOf(it, i)));
    this.list.style.left = `${editor.leftOf(head - word.length)}px`;
    this.list.style.top = `${editor.topOf(head) + editor.rowHeight + editor.padding.top}px`;
    this.list.hidden = false;
    this.editor.area.setAttribute('aria-expanded', 'true');
    this.choose(0);
  }

  offerOf({ name, kind, of }, i) {
    const parts = [element('b', {}, name), ` ${of} `, element('small', {}, kind)];
    const made = element('li', { id: `${this.list.id}-${i}` }, ...parts);
    made.setAttribute('role', 'option');
    return made;
  }

  choose(i) {
    const { length } = this.offers;
    this.chosen = (i + length) % length;
    [...this.list.children].forEach((it, k) => it.setAttribute('aria-selected', String(k === this.chosen)));
    const option = this.list.children[this.chosen];
    this.editor.area.setAttribute('aria-activedescendant', option.id);
    option.scrollIntoView({ block: 'nearest' });
  }

  accept(i) {
    const { editor, word } = this, { head } = editor.selection, { name } = this.offers[i];
    this.close();
    editor.selection = { anchor: head - word.length, head };
    editor.putSelection(name);
  }

  takeClick(event) {
    const option = event.target.closest('li');
    event.preventDefault();
    if (option) this.accept([...this.list.children].indexOf(option));
  }

  close() {
    this.list.hidden = true;
    this.editor.area.removeAttribute('aria-activedescendant');
    this.editor.area.setAttribute('aria-expanded', 'false');
  }
}
