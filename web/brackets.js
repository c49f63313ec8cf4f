// The bracket that belongs to the one at the caret.

const CLOSERS = { '(': ')', '[': ']', '{': '}', '<': '>' };
// What is between brackets: layout with comments, and quoted names. In a specification `<` and `>` are in marks alone.
const SPEC_BRACKETS = /%[^\n]*|[()]/g;
const TERM_BRACKETS = /"(?:[^"\\]|\\[^])*"|[()[\]{}<>]/g;

// The brackets of a text that are in no comment and in no quoted name, each with the number of the one that it belongs
// to, or -1.
function bracketsOf(text, expression) {
  const found = [], open = [];
  for (const { 0: bracket, index } of text.matchAll(expression)) {
    if (bracket.length > 1 || bracket === '%') continue;
    const other = bracket in CLOSERS ? -1 : open.at(-1) ?? -1;
    const isPair = other >= 0 && CLOSERS[found[other].bracket] === bracket;
    if (bracket in CLOSERS) open.push(found.length);
    else if (isPair) found[open.pop()].other = found.length;
    found.push({ bracket, at: index, other: isPair ? other : -1 });
  }
  return found;
}

// The bracket before the caret, or else after it, and the one that it belongs to; nothing if there is none.
function pairAt(text, caret, expression) {
  const found = bracketsOf(text, expression), at = (offset) => found.find((it) => it.at === offset);
  const own = at(caret - 1) || at(caret);
  if (!own || own.other < 0) return own ? { isPair: false, places: [own.at] } : null;
  return { isPair: true, places: [own.at, found[own.other].at] };
}

// Marks the pair at the caret. Of a long text the window alone is searched, so a bracket without another is not marked.
function markBrackets(editor, expression) {
  const { anchor, head } = editor.selection, [from, to] = editor.limits, text = editor.text.slice(from, to);
  const around = editor.text.slice(Math.max(0, head - 1), head + 1);
  const isNear = document.activeElement === editor.area && anchor === head && /[()[\]{}<>]/.test(around);
  const pair = isNear && head >= from && head <= to ? pairAt(text, head - from, expression) : null;
  const isTold = pair && (pair.isPair || text.length === editor.text.length);
  const kind = pair && pair.isPair ? 'pair' : 'lone';
  editor.mark('brackets', isTold ? pair.places.map((it) => ({ from: from + it, to: from + it + 1, kind })) : []);
}

function listenToBrackets(editor, expression) {
  const mark = () => markBrackets(editor, expression);
  for (const it of ['moved', 'edited', 'focus', 'blur']) editor.area.addEventListener(it, mark);
}
