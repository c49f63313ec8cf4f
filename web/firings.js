// The tab of a trace: one goes through the rewrites, back and forth.

const LONGEST_TERM = 60;      // characters of a term in the list
const TRACING_PAUSE = 150;    // milliseconds, after which it is said that a trace is made
const CONTROLS = ['term', 'save', 'first', 'back', 'forth', 'last', 'slider'].map((it) => `firings-${it}`);

const steps = { terms: [], firings: [], at: 0, limit: 0, isLimit: false, told: '', asked: [] };

async function showFirings(runner) {
  const asked = evaluationAsked();
  if (!asked) { byId('firings-said').textContent = notRun(); return; }
  const slow = setTimeout(showTracing, TRACING_PAUSE), told = await runner.run('trace', asked);
  clearTimeout(slow);
  if (!told || byId('firings').hidden) return;
  for (const it of CONTROLS) byId(it).disabled = false;
  const isGood = Boolean(told.terms);
  // an answer that comes once more leaves the rewrite that is looked at
  const isSame = steps.told === told.short && String(steps.asked) === String(told.asked);
  const again = isGood && steps.terms.length > 0 && isSame;
  steps.told = told.short || '';
  if (again) return goToFiring(steps.at);
  Object.assign(steps, { terms: told.terms || [], asked: told.asked || [], limit: told.limit, isLimit: told.isLimit });
  listTerms();
  showTermOfTrace();
  if (isGood) return;
  const failure = told.broken || told.fault;
  byId('firings-said').textContent = failure ? `The trace stopped: ${failure}.` : 'A rejected text has no trace.';
}

// A trace is made, and nothing can be looked at meanwhile.
function showTracing() {
  byId('firings-said').textContent = 'Tracing…';
  for (const it of CONTROLS) byId(it).disabled = true;
}

function listTerms() {
  const list = byId('firings-term'), chosen = list.selectedIndex;
  const items = steps.terms.map(({ firings }, i) => element('option', {},
    `${shortText(steps.asked[i] || '')}: ${plural(firings.length, 'rewrite')}`));
  list.replaceChildren(...items);
  if (items.length) list.selectedIndex = Math.min(Math.max(chosen, 0), items.length - 1);
}

function shortText(text) {
  const line = text.replace(/\s+/g, ' ');
  return line.length <= LONGEST_TERM ? line : `${line.slice(0, LONGEST_TERM)}…`;
}

// The chosen term, at its first rewrite.
function showTermOfTrace() {
  const term = steps.terms[byId('firings-term').selectedIndex];
  steps.firings = term ? term.firings : [];
  byId('firings-shown').hidden = !term;
  byId('firings-end').replaceChildren(...(term ? endOf(term) : []));
  goToFiring(0);
}

// The result of a term, and what is not shown of the way to it.
function endOf({ end, more }) {
  const left = more === '0' ? '' : `${more} more rewrites are not shown. `;
  if (!end.startsWith('!limit')) {
    const [value, count] = end.split('\t');
    return [`${left}After ${plural(Number(count), 'step')} the value is `, element('code', {}, cut(cutText(value)))];
  }
  const limit = plural(Number(steps.limit), 'step');
  if (steps.isLimit) return [`${left}The limit of ${limit} is reached.`];
  return [`${left}The trace ends after ${limit}: the rest is not shown.`];
}

// What is said of a term without a rewrite. A trace has none of those inside conditions.
function wordsWithoutFiring() {
  const term = steps.terms[byId('firings-term').selectedIndex];
  if (!term) return 'There are no terms to evaluate.';
  if (term.end.startsWith('!limit')) {
    const spent = plural(Number(steps.limit), 'step');
    return `All ${spent} were spent inside conditions, whose rewrites a trace does not show.`;
  }
  const spent = Number(term.end.split('\t')[1]);
  return spent ? `No rule applies: its conditions fail, which took ${plural(spent, 'step')}.` : 'No rule applies.';
}

// Shows a rewrite; a number outside stands for the nearest one.
function goToFiring(at) {
  const { firings } = steps, last = firings.length - 1;
  steps.at = Math.max(0, Math.min(at, last));
  const firing = firings[steps.at], slider = byId('firings-slider');
  byId('firing').hidden = !firing;
  slider.max = String(Math.max(last, 0) + 1);
  slider.value = String(steps.at + 1);
  slider.disabled = last < 1;
  for (const it of ['first', 'back']) byId(`firings-${it}`).disabled = steps.at === 0;
  for (const it of ['forth', 'last']) byId(`firings-${it}`).disabled = steps.at >= last;
  byId('firings-said').textContent = firing ? `Rewrite ${steps.at + 1} of ${firings.length}` : wordsWithoutFiring();
  slider.setAttribute('aria-valuetext', firing ? `${steps.at + 1} of ${firings.length}` : 'none');
  if (firing) showFiring(firing);
  else editors.spec.mark('firing', []);
}

function showFiring(firing) {
  const { line, column, redex, contractum, before, after } = firing, { spec } = editors;
  const from = characterOf(spec.model, line, column), end = spec.text.indexOf('\n', from);
  const rule = { from, to: end < 0 ? spec.text.length : end, kind: 'here' };
  spec.mark('firing', [rule]);
  spec.reveal(rule);
  byId('firing-place').textContent = `Rule at line ${line}, column ${column}`;
  byId('firing-rule').textContent = spec.text.slice(rule.from, rule.to).trimEnd();
  byId('firing-redex').textContent = redex;
  byId('firing-contractum').textContent = contractum;
  const place = placeOfRedex(firing);
  byId('firing-where').textContent = `In the whole term${place ? '' : ', after what is shown of it'}`;
  showMarked('firing-before', before, place && [place.from, place.to]);
  showMarked('firing-after', after, place && [place.from, place.until]);
}

// Shows a text with a marked part, and scrolls to that inside of its box.
function showMarked(id, text, part) {
  const box = byId(id), [from, to] = part || [0, 0];
  const marked = element('mark', {}, text.slice(from, to));
  box.replaceChildren(text.slice(0, from), ...(part ? [marked] : []), text.slice(to));
  box.scrollTop = part ? marked.offsetTop - box.offsetTop - box.clientHeight / 3 : 0;
}

// The rewrite to which a key leads.
function keyedFiring(key) {
  return { ArrowLeft: steps.at - 1, ArrowRight: steps.at + 1, Home: 0, End: steps.firings.length - 1 }[key];
}

function listenToFirings(runner) {
  const panel = byId('firings');
  if (!panel) return;
  for (const it of ['shown', 'asked']) panel.addEventListener(it, () => showFirings(runner));
  panel.addEventListener('left', () => editors.spec.mark('firing', []));
  byId('firings-term').addEventListener('change', showTermOfTrace);
  byId('firings-save').addEventListener('click', () => saveFile('trace.txt', steps.told));
  for (const [name, key] of Object.entries({ first: 'Home', back: 'ArrowLeft', forth: 'ArrowRight', last: 'End' })) {
    byId(`firings-${name}`).addEventListener('click', () => goToFiring(keyedFiring(key)));
  }
  byId('firings-slider').addEventListener('input', ({ target }) => goToFiring(Number(target.value) - 1));
  byId('firing-go').addEventListener('click', () => editors.spec.select(editors.spec.marksFor('firing')[0]));
  panel.addEventListener('keydown', (event) => {
    const at = keyedFiring(event.key);
    if (at === undefined || !(event.target === panel || event.target.matches('button'))) return;
    goToFiring(at);
    event.preventDefault();
  });
}
