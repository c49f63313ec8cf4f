// The tab of a profile: how often each rule was used, and what the evaluation took.

const profile = { rules: [], sort: 'line' };
const PROFILE_COLUMNS = [['line', 'Rule'], ['matched', 'Matched'], ['applied', 'Applied'], ['failed', 'Failed']];

async function showProfile(runner) {
  const asked = evaluationAsked();
  if (!asked) { byId('profile-said').textContent = notRun(); return; }
  byId('profile-said').textContent = 'Evaluating…';
  const told = await runner.run('profile', asked);
  if (!told || byId('profile').hidden) return;
  profile.rules = told.rules || [];
  byId('profile-said').textContent = wordsOfProfile(told);
  if (told.rules) drawProfile();
  else byId('profile-shown').replaceChildren();
}

function wordsOfProfile({ broken, fault, error, totals, isCounted }) {
  if (error) return 'A rejected text has no profile.';
  const words = broken || fault ? [`The run stopped: ${broken || fault}.`] : [];
  if (totals) words.push(wordsOfTotals(totals));
  if (totals && !isCounted) words.push('There was no memory to count the rules.');
  return words.join(' ');
}

function wordsOfTotals({ steps, hits, saved, made, most, collections }) {
  const number = (it) => it.toLocaleString('en');
  return `${plural(steps, 'step')}, ${number(saved)} of them saved by ${plural(hits, 'hit')} of the memo table; `
    + `${plural(made, 'new cell')}, at most ${number(most)} in use; ${plural(collections, 'garbage collection')}.`;
}

// The rules by line, or those first of which a number is largest.
function sortedRules() {
  const { rules, sort } = profile, rank = sort === 'line' ? (it) => it.from : (it) => -it[sort];
  return [...rules].sort((a, b) => rank(a) - rank(b) || a.from - b.from);
}

function drawProfile() {
  const heads = PROFILE_COLUMNS.map(([id, name]) => {
    const button = element('button', { type: 'button', className: 'plain' }, name);
    button.addEventListener('click', () => { profile.sort = id; drawProfile(); });
    const head = element('th', { scope: 'col', className: id === 'line' ? '' : 'number' }, button);
    if (profile.sort === id) head.setAttribute('aria-sort', id === 'line' ? 'ascending' : 'descending');
    return head;
  });
  const most = Math.max(1, ...profile.rules.map((it) => it.matched));
  const rows = sortedRules().map((it) => profileRow(it, most));
  byId('profile-shown').replaceChildren(
    element('table', {}, element('thead', {}, element('tr', {}, ...heads)), element('tbody', {}, ...rows)));
}

function profileRow(rule, most) {
  const go = element('button', { type: 'button', className: 'plain' }, `${rule.line}:${rule.column}`);
  go.addEventListener('click', () => editors.spec.select(rule));
  const bar = element('span', { className: 'share' });
  bar.style.width = `${(100 * rule.matched) / most}%`;
  const cells = PROFILE_COLUMNS.slice(1).map(([id, name]) => {
    const cell = element('td', { className: 'number' }, rule[id].toLocaleString('en'));
    cell.dataset.head = name;
    return cell;
  });
  return element('tr', {}, element('td', {}, go, ' ', element('code', {}, rule.text), bar), ...cells);
}

function listenToProfile(runner) {
  const panel = byId('profile');
  if (!panel) return;
  for (const it of ['shown', 'asked']) panel.addEventListener(it, () => showProfile(runner));
}
