// Which words of a specification name the same, by docs/reference/rec.md: sorts have names of their own, symbols and
// variables share theirs, and the word after REC-SPEC names nothing.

const IDENTIFIER = /^[A-Za-z0-9_](?:[A-Za-z0-9_']|-(?=[A-Za-z0-9_]))*$/;

// The uses of all names in the order of the text, or null if the text is outside the grammar. Each is
// `{from, to, name, kind, declared, of}`: the kind is sort, constructor, operator, variable or undeclared; `declared` is
// the first word that declares the name, or null; and `of` has the sorts of its declaration, as they are written there.
function usesOf(text) {
  const spec = readSpec(text);
  if (spec.error) return null;
  const { sorts, symbols, variables, nodes } = spec, known = new Declared(spec);
  const sortNamed = new Map([...sorts].reverse().map((it) => [it.name, it]));
  const ofSort = ({ from, to, name }) => (
    { from, to, name, kind: 'sort', declared: sortNamed.get(name) || null, of: '' });
  const ofName = (word) => useOfName(word, known.symbol(word.name), known.variable(word.name));
  return [
    ...sorts.map(ofSort),
    ...symbols.flatMap(({ name, sorts: of, sort }) => [ofName(name), ...of.map(ofSort), ofSort(sort)]),
    ...variables.flatMap(({ name, sort }, i) => (
      variables[i + 1]?.sort === sort ? [ofName(name)] : [ofName(name), ofSort(sort)])),
    ...nodes.map(ofName),
  ];
}

// A use of a symbol or of a variable; one with the name of a symbol names that.
function useOfName({ from, to, name }, symbol, variable) {
  if (symbol) {
    const kind = symbol.isConstructor ? 'constructor' : 'operator';
    const of = [...symbol.sorts.map((it) => it.name), '->', symbol.sort.name].join(' ');
    return { from, to, name, kind, declared: symbol.name, of };
  }
  if (variable) return { from, to, name, kind: 'variable', declared: variable.name, of: variable.sort.name };
  return { from, to, name, kind: 'undeclared', declared: null, of: '' };
}

// The use whose word an offset is in, or right after.
function useAt(uses, at) { return uses.find((it) => it.from <= at && at <= it.to) || null; }

// The uses that name the same as one whose name is declared.
function usesOfSame(uses, { declared }) {
  return declared ? uses.filter((it) => it.declared && it.declared.from === declared.from) : [];
}

// Why a use cannot have another name, or null.
function refusedName(uses, use, word) {
  if (!IDENTIFIER.test(word)) return "A name consists of ASCII letters, digits, _, ' and single -.";
  if (RESERVED.has(word)) return `${word} is a reserved word.`;
  const other = uses.find((it) => it.name === word && (it.kind === 'sort') === (use.kind === 'sort'));
  if (!other || word === use.name) return null;
  return other.declared ? `${word} is already declared.` : `${word} is already in the text, without a declaration.`;
}

if (typeof module !== 'undefined') module.exports = { usesOf };
