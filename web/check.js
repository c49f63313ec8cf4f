// The tab of a check: what is found in the specification, each with a way to its location.

async function showFound(runner) {
  const panel = byId('found'), { spec } = editors, { text } = spec;
  const told = await runner.run('check', { texts: { spec: text } });
  if (!told || panel.hidden || spec.text !== text) return;
  const failure = told.broken || told.fault, { found = [], count = 0 } = told;
  spec.mark('found', found);
  byId('found-list').replaceChildren(...found.map((it) => element('li', {}, messageOf(it))));
  byId('found-said').textContent = failure ? `The check stopped: ${failure}.` : summaryOf(found, count);
}

function messageOf(found) {
  const { line, column, rule, words, kind } = found;
  const go = element('button', { type: 'button', className: 'go' },
    element('span', { className: 'spot' }, `Line ${line}, column ${column} `), words);
  go.addEventListener('click', () => editors.spec.select(found));
  return element('div', { className: `message ${kind}` }, codeButton(rule), go);
}

function summaryOf(found, count) {
  const more = count > found.length ? `, of which ${found.length} are shown` : '';
  if (!count) return 'The specification is valid, without warnings.';
  if (found[0].kind === 'warn') return `The specification is valid, with ${plural(count, 'warning')}${more}.`;
  const { rule } = found[0], isAlone = found.every((it) => it.rule === rule);
  const places = isAlone ? `, at ${plural(count, 'location')}` : `; it has ${plural(count, 'error')} in all`;
  return `The specification is rejected with ${rule}${places}${more}.`;
}

function listenToCheck(runner) {
  const panel = byId('found');
  if (!panel) return;
  for (const it of ['shown', 'asked']) panel.addEventListener(it, () => showFound(runner));
  panel.addEventListener('left', () => editors.spec.mark('found', []));
}
