// Which terms the lines of an evaluation belong to. The texts are good ones.

const TOKENS = /%[^\n]*|[A-Za-z0-9_](?:[A-Za-z0-9_']|-(?=[A-Za-z0-9_]))*|[(),]|\S/g;

// The terms below EVAL, each as it is written.
function termsOf(spec) {
  const terms = [];
  let inside = false, depth = 0, from = 0, to = 0, comes = false;
  const close = () => { if (comes) terms.push(spec.slice(from, to)); comes = false; };
  for (const { 0: token, index } of spec.matchAll(TOKENS)) {
    if (token[0] === '%') continue;
    if (!inside) { inside = token === 'EVAL'; continue; }
    if (token === 'END-SPEC') break;
    if (depth === 0 && token !== '(') { close(); from = index; comes = true; }
    depth += (token === '(') - (token === ')');
    to = index + token.length;
  }
  close();
  return terms;
}

// The elements of a list of annotated terms, each as it is written.
function elementsOf(list) {
  const elements = [];
  let depth = 0, from = -1, to = 0;
  const close = () => { if (from >= 0) elements.push(list.slice(from, to)); from = -1; };
  for (const { 0: token, index } of list.matchAll(/"(?:[^"\\]|\\[^])*"|[^]/g)) {
    if (/^\s$/.test(token)) continue;
    const opens = /^[([{<]$/.test(token), closes = /^[)\]}>]$/.test(token);
    depth -= closes;
    if (depth === 0 && closes) { close(); break; }
    if (depth === 1 && token === ',') close();
    else if (depth > 0) { from = from < 0 ? index : from; to = index + token.length; }
    depth += opens;
  }
  return elements;
}

if (typeof module !== 'undefined') Object.assign(module.exports, { termsOf, elementsOf });
