// How errors are shown: their codes, what was found and expected, and a way to their location.

const EXCERPT = 60;             // characters before a location, and after it
const NAMES = { spec: 'specification', terms: 'input terms', term: 'term', pattern: 'pattern', args: 'arguments' };

// A text as words, with what is in backquotes between quotes.
function plainWords(text) { return text.replace(/`([^`]*)`/g, '“$1”'); }

// A text with what is in backquotes as code.
function withCode(text) {
  return text.split(/`([^`]*)`/).map((it, i) => (i % 2 ? element('code', {}, it) : it)).filter((it) => it !== '');
}

function listed(words) {
  return words.length > 1 ? `${words.slice(0, -1).join(', ')} or ${words.at(-1)}` : words[0];
}

// What an error is about: what was found and expected, and the declarations that it contradicts.
function detailsOf({ code, notes, found, expected }) {
  const words = data.tokens[code] || {}, all = [...notes];
  if (found) all.push(`found ${found}`);
  if (expected.length) all.push(`expected ${listed(expected.map((it) => words[it]))}`);
  return all.join('; ');
}

// An error as a sentence without its code.
function sentenceOf(error) {
  const details = detailsOf(error);
  return `${data.refusals[error.code]}${details ? `; ${details}` : ''}`;
}

// The code of an error or a warning, which leads to its explanation.
function codeButton(code) {
  const button = element('button', { type: 'button', className: 'code', title: `What ${code} means` }, code);
  button.addEventListener('click', () => showCode(code));
  return button;
}

// A box with an error of a text in an editor: its code, what is wrong, the line that it is in, and a way there.
function errorBox(error, editor) {
  const words = element('p', {}, codeButton(error.code), ' ', ...withCode(sentenceOf(error)));
  const box = element('div', { className: 'refusal' }, words);
  if (error.from === null) return box;
  editor.mark('refused', [{ from: error.from, to: error.to, kind: 'bad' }]);
  box.append(excerptOf(editor.text, error), goThere(editor, error));
  if (error.hint) box.append(hintOf(editor, error.hint));
  return box;
}

function goThere(editor, place) {
  const go = element('button', { type: 'button', textContent: 'Go there' });
  go.addEventListener('click', () => editor.select(place));
  return go;
}

// The line of a part, with that marked.
function excerptOf(text, { from, to }) {
  const start = Math.max(text.lastIndexOf('\n', from - 1) + 1, from - EXCERPT), found = text.indexOf('\n', from);
  const end = Math.min(found < 0 ? text.length : found, Math.max(from, to) + EXCERPT), last = Math.min(to, end);
  const marked = element('span', { className: 'bad-place' }, text.slice(from, last) || ' ');
  return element('pre', {}, text.slice(start, from), marked, text.slice(last, end));
}

function hintOf(editor, { from, to, words }) {
  const { line, column } = editor.model.placeOf(from);
  return element('p', {}, `Line ${line}, column ${column}: ${words} `, goThere(editor, { from, to }));
}

// Where an error is, in words.
function locationOf({ from }, editor) {
  if (from === null) return '';
  const { line, column } = editor.model.placeOf(from);
  return ` at line ${line}, column ${column}`;
}
