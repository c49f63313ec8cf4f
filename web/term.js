// The tab of a term: what is shown of three runs. An error is shown once, below the text that has it.

async function showTerm(runner) {
  const [term, pattern, args] = ['term', 'pattern', 'args'].map((it) => byId(`${it}-text`).value);
  const texts = { term, pattern, args }, told = await runner.run('term', { texts });
  if (!told) return;
  const answers = told.broken ? { share: { fault: told.broken } } : told;
  const shown = { term: answers.share, pattern: answers.match, args: answers.make };
  for (const [name, answer] of Object.entries(shown)) showOutput(name, answer || {}, texts);
}

function showOutput(name, { fault, error, text = '' }, texts) {
  const output = byId(`${name}-shown`), isOwn = Boolean(fault) || (error && error.source === name);
  output.className = isOwn ? 'bad' : '';
  byId(`${name}-text`).setAttribute('aria-invalid', String(Boolean(isOwn)));
  if (fault) output.replaceChildren(fault);
  else if (isOwn) output.replaceChildren(...errorLine(error, texts[name]));
  else output.replaceChildren(error ? '' : text);
}

// An error of a text in one line: its code, its column, and what is wrong.
function errorLine(error, text) {
  const parts = [codeButton(error.code), ' '];
  if (error.from !== null) {
    const { line, column } = lineAndColumn(text, error.from);
    parts.push(text.includes('\n') ? `line ${line}, column ${column}: ` : `column ${column}: `);
  }
  return [...parts, ...withCode(sentenceOf(error))];
}

function listenToTerm(runner) {
  for (const it of ['term', 'pattern', 'args']) byId(`${it}-text`).addEventListener('input', () => showTerm(runner));
  byId('term').addEventListener('shown', () => showTerm(runner));
}
