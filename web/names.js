// What a specification declares, by name; and words that are spelled nearly alike.

// The first symbol and the first variable of each name.
class Declared {
  constructor({ symbols, variables }) {
    // constructors are looked for first
    this.symbols = [...symbols.filter((it) => it.isConstructor), ...symbols.filter((it) => !it.isConstructor)];
    this.variables = variables;
    this.symbolOf = firstByName(this.symbols);
    this.variableOf = firstByName(variables);
  }

  symbol(name) { return this.symbolOf.get(name) || null; }

  variable(name) { return this.variableOf.get(name) || null; }

  sortOf(name) {
    const declaration = this.symbol(name) || this.variable(name);
    return declaration && declaration.sort.name;
  }

  // The symbol whose name is nearest to a word, or with `all` the symbol or variable.
  nearest(word, all) {
    const names = this.symbols.concat(all ? this.variables : []).map((it) => it.name.name);
    let nearest = null, least = mostApart(word.length) + 1;
    for (const name of names) {
      const gap = gapBetween(word, name);
      if (gap < least) [nearest, least] = [name, gap];
    }
    return nearest;
  }

  // What is wrong with an argument of a symbol whose first word is `head`; nothing if its sort is right or not known.
  misfit(symbol, index, head) {
    const declaration = this.symbol(symbol), wanted = declaration && declaration.sorts[index];
    const given = this.sortOf(head);
    if (!wanted || !given || wanted.name === given) return null;
    return `expected ${wanted.name}, found ${given}, in argument ${index + 1} of ${symbol}`;
  }
}

function firstByName(declarations) {
  const found = new Map();
  for (const it of declarations) if (!found.has(it.name.name)) found.set(it.name.name, it);
  return found;
}

// In how many characters words differ between a common prefix and a common suffix; in none if in case alone.
function gapBetween(word, other) {
  if (word.toLowerCase() === other.toLowerCase()) return 0;
  const shorter = Math.min(word.length, other.length);
  let front = 0, back = 0;
  while (front < shorter && word[front] === other[front]) front++;
  while (back < shorter - front && word.at(-1 - back) === other.at(-1 - back)) back++;
  return Math.max(word.length, other.length) - front - back;
}

// In how many characters a word may differ from one that is meant, by its length.
function mostApart(length) {
  if (length < 2) return 0;
  return length < 4 ? 1 : 2;
}

// Whether a word of a specification is quoted in a text of terms.
function isQuotedInTerms(word) { return !/^[A-Za-z_]/.test(word) || word.includes("'"); }
