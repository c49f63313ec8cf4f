// The tab of the values: a row for each term, or why there are none.

const ROWS_AT_ONCE = 100;       // that are put into the page, so that it goes on answering

let last = null;                // the bytes of the last evaluation's lines
let chunk = 0;                  // the timer of the rows that are not in the page yet

function showEvaluation({ texts }, told) {
  const panel = byId('values');
  clearTimeout(chunk);
  for (const it of Object.values(editors)) it.mark('refused', []);
  last = told.out || null;
  if (told.broken || told.fault) showFailure(panel, told);
  else if (told.error) showError(panel, told.error);
  else showValues(panel, texts, told);
}

function showFailure(panel, { broken, fault }) {
  panel.replaceChildren();
  if (broken) say(`The engine broke off: ${broken}`);
  else say(`The run stopped: ${fault}.${fault === 'out of cells' ? ' A larger number of cells may help.' : ''}`);
}

function showError(panel, error) {
  const editor = editors[error.source], verb = error.source === 'terms' ? 'are' : 'is';
  panel.replaceChildren(errorBox(error, editor));
  const where = locationOf(error, editor), why = plainWords(sentenceOf(error));
  say(`The ${NAMES[error.source]} ${verb} rejected${where}: ${error.code}, ${why}.`);
}

function cut({ text, more }) { return more ? `${text}… (${plural(more, 'character')})` : text; }

function showValues(panel, texts, { rows, count, limits, milliseconds }) {
  const hasSteps = rows.some((it) => it.steps !== null), heads = ['Term', 'Value', ...(hasSteps ? ['Steps'] : [])];
  const cells = heads.map((it) => element('th', { scope: 'col', className: it === 'Steps' ? 'number' : '' }, it));
  const body = element('tbody'), head = element('tr', {}, ...cells, element('td'));
  const table = element('table', {}, element('thead', {}, head), body);
  const save = element('button', { type: 'button', textContent: 'Save all lines' });
  save.addEventListener('click', () => saveFile('values.txt', last));
  panel.replaceChildren(...(count ? [table, element('p', { className: 'bar' }, save)] : []));
  addRows(body, rows, hasSteps, 0);
  performance.mark('value');
  const more = count > rows.length ? `, of which ${rows.length.toLocaleString('en')} are shown` : '';
  const over = limits ? `, ${limits.toLocaleString('en')} over the limit` : '';
  const time = plural(Math.round(milliseconds), 'millisecond');
  if (count) say(`${plural(count, 'line')}${over}${more}, in ${time}.`);
  else say('The specification is valid, and has no EVAL terms.');
}

// Adds some rows now, and the others later.
function addRows(body, rows, hasSteps, from) {
  const to = from + ROWS_AT_ONCE;
  body.append(...rows.slice(from, to).map((it, i) => valueRow(it, from + i, hasSteps)));
  if (to < rows.length) chunk = setTimeout(() => addRows(body, rows, hasSteps, to), 0);
}

function valueRow({ asked, value, limit, steps }, i, hasSteps) {
  const shown = limit === null ? element('code', {}, cut(value)) : `over the limit of ${plural(limit.most, limit.unit)}`;
  const cells = [element('td', {}, element('code', {}, cut(asked))),
    element('td', { className: limit === null ? '' : 'limit' }, shown)];
  const spent = steps === null ? '' : BigInt(steps).toLocaleString('en');
  if (hasSteps) cells.push(element('td', { className: 'number' }, spent));
  ['Term', 'Value', 'Steps'].forEach((it, k) => cells[k] && (cells[k].dataset.head = it));
  cells.push(element('td', { className: 'copy' }, ...(limit === null ? [copyButton(i)] : [])));
  return element('tr', {}, ...cells);
}

// One of these buttons at a time is reached by Tab, the others by the arrow keys.
function copyButton(i) {
  const button = element('button', { type: 'button', tabIndex: i === 0 ? 0 : -1 }, 'Copy');
  button.setAttribute('aria-label', `Copy value ${i + 1}`);
  button.addEventListener('click', () => copyValue(i));
  return button;
}

// The value on a line of the last evaluation, as a whole.
function wholeValue(i) {
  let from = 0;
  for (let left = i; left > 0; left--) from = last.indexOf(10, from) + 1;
  return decoded(last.subarray(from, last.indexOf(10, from))).split('\t')[0];
}

async function copyValue(i) {
  await copyText(wholeValue(i), `Value ${i + 1} is copied.`, 'This browser does not let the page copy.');
}

async function copyText(text, done, otherwise) {
  try {
    await navigator.clipboard.writeText(text);
    say(done);
  } catch {
    say(otherwise);
  }
}

function moveCopy(event) {
  const buttons = [...byId('values').querySelectorAll('.copy button')], at = buttons.indexOf(event.target);
  const to = { ArrowUp: at - 1, ArrowDown: at + 1, Home: 0, End: buttons.length - 1 }[event.key];
  if (at < 0 || !buttons[to]) return;
  for (const it of buttons) it.tabIndex = it === buttons[to] ? 0 : -1;
  buttons[to].focus();
  event.preventDefault();
}
