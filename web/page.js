// The page: what is asked, the workers that answer, and what is shown of that.

const PAUSE = 300;              // milliseconds without typing, then it is evaluated
const LONGEST_ADDRESS = 60000;  // characters

const byId = (id) => document.getElementById(id);
const data = JSON.parse(byId('data').textContent);
const editors = {
  spec: new Editor(byId('spec'), new Colours(data.grammar)),
  terms: new Editor(byId('terms'), null),
};
let names = '';                 // what the specification declares, in lines
const given = { spec: '', terms: '' };  // the texts that an example, a link or a file gave

function say(words) { byId('said').textContent = words; }

function plural(count, noun) { return `${count.toLocaleString('en')} ${noun}${count === 1 ? '' : 's'}`; }

// The module, which stands in the page in a small form.
async function moduleOfPage() {
  const small = Uint8Array.from(atob(byId('module').textContent), (it) => it.charCodeAt(0));
  const whole = new Blob([small]).stream().pipeThrough(new DecompressionStream('gzip'));
  return WebAssembly.compile(await new Response(whole).arrayBuffer());
}

// Does jobs in a worker, one at a time: a new one ends an older one.
class Runner {
  constructor(module) {
    this.module = module;
    this.address = URL.createObjectURL(new Blob([byId('worker').textContent], { type: 'text/javascript' }));
    this.worker = null;
  }

  // Answers what the job came to; or nothing, if it was ended.
  run(name, asked) {
    this.stop();
    return new Promise((answer) => {
      this.ended = () => answer(null);
      this.worker = new Worker(this.address);
      const end = (told) => { this.worker.terminate(); this.worker = null; answer(told); };
      this.worker.onmessage = ({ data: told }) => end(told);
      this.worker.onerror = (event) => { event.preventDefault(); end({ broken: event.message }); };
      this.worker.postMessage({ module: this.module, name, asked });
    });
  }

  stop() {
    if (!this.worker) return false;
    this.worker.terminate();
    this.worker = null;
    this.ended();
    return true;
  }
}

function textsAsked() {
  const { spec, terms } = editors;
  return { spec: spec.text, terms: /\S/.test(terms.text) ? terms.text : null };
}

// What is to be evaluated, or null if a limit is wrong.
function evaluationAsked() {
  const options = limitsAsked();
  return options && { texts: textsAsked(), options };
}

function notRun() {
  const wrong = wrongLimits(), noun = wrong.length === 1 ? 'limit' : 'limits';
  return `Nothing was run: correct the ${noun} ${wrong.join(' and ')}.`;
}

function showBusy(busy) {
  byId('stop').disabled = !busy;
  document.body.setAttribute('aria-busy', String(busy));
}

let pause = 0;                  // the timer of a run that comes soon, or 0
async function evaluate(runner) {
  clearTimeout(pause);
  pause = 0;
  writeAddress();
  const asked = evaluationAsked();
  if (!asked) { runner.stop(); showBusy(false); say(notRun()); return; }
  tellPanel('asked');
  const slow = setTimeout(() => say('Evaluating…'), PAUSE);
  showBusy(true);
  const told = await runner.run('evaluate', asked);
  clearTimeout(slow);
  if (!told) return;
  showBusy(false);
  // what it tells may be of another text by now, and a run of that comes
  if (pause) return;
  names = told.names || names;
  showEvaluation(asked, told);
  tellPanel('answered');
}

// Tells the panel that is shown of an event.
function tellPanel(event) {
  document.querySelector('[role="tabpanel"]:not([hidden])').dispatchEvent(new Event(event));
}

function evaluateSoon(runner) {
  clearTimeout(pause);
  pause = setTimeout(() => evaluate(runner), PAUSE);
}

// The address: what is asked, after its `#`.
function writeAddress() {
  const { spec, terms } = editors, fits = spec.text.length + terms.text.length <= LONGEST_ADDRESS;
  const text = fits ? `#${addressOf(spec.text, terms.text)}` : '#';
  const isShort = fits && text.length <= LONGEST_ADDRESS;
  if (!isShort || text !== location.hash) history.replaceState(null, '', isShort ? text : '#');
  return isShort;
}

function addressOf(spec, terms) {
  const asked = new URLSearchParams({ spec, terms });
  for (const { id } of LIMITS) if (byId(id).value !== byId(id).defaultValue) asked.set(id, byId(id).value);
  if (!byId('count').checked) asked.set('count', '0');
  return asked;
}

function readAddress() {
  const asked = new URLSearchParams(location.hash.slice(1));
  if (!asked.has('spec')) return false;
  giveTexts({ spec: asked.get('spec'), terms: asked.get('terms') || '' });
  for (const { id } of LIMITS) byId(id).value = asked.get(id) || byId(id).defaultValue;
  byId('count').checked = asked.get('count') !== '0';
  return true;
}

// Puts texts into the editors; to undo one of them undoes them all.
function giveTexts(texts) {
  const group = {};
  for (const [name, text] of Object.entries(texts)) {
    editors[name].replaceAll(text, group);
    given[name] = editors[name].text;
  }
}

// The other editors undo with one of them what was one change of all.
function undoTogether(editor, edit, isUndo) {
  if (!edit.group) return;
  for (const it of Object.values(editors)) {
    if (it !== editor && it.history.peek(isUndo)?.group === edit.group) it.undo(isUndo);
  }
}

async function copyLink() {
  if (!writeAddress()) { say('The texts are too long for an address: save them as files.'); return; }
  await copyText(location.href, 'The link is copied. It has the specification, the input terms and the limits.',
    'The address has the specification, the input terms and the limits: copy it from above.');
}

function saveFile(name, content, type = 'text/plain') {
  const address = URL.createObjectURL(new Blob([content], { type }));
  element('a', { href: address, download: name }).click();
  setTimeout(() => URL.revokeObjectURL(address), 1000);
}

// Opens a file into an editor. An editor has line ends of one byte, and texts in UTF-8.
async function openFile(name, file, then) {
  const bytes = new Uint8Array(await file.arrayBuffer());
  giveTexts({ [name]: decoded(bytes).replace(/\r\n?/g, '\n') });
  const same = encoded(editors[name].text);
  await then();
  if (same.length !== bytes.length || same.some((it, i) => it !== bytes[i])) {
    say('The file is not UTF-8, or has other line ends: these were changed, so locations may differ.');
  }
}

function selectTab(tab) {
  for (const it of byId('tabs').children) {
    const chosen = it === tab, panel = byId(it.getAttribute('aria-controls'));
    it.setAttribute('aria-selected', String(chosen));
    it.tabIndex = chosen ? 0 : -1;
    if (!chosen && !panel.hidden) panel.dispatchEvent(new Event('left'));
    panel.hidden = !chosen;
  }
  tellPanel('shown');
}

// A tab for each panel that needs nothing that the module lacks.
function makeTabs(module) {
  const there = new Set(WebAssembly.Module.exports(module).map((it) => it.name));
  for (const panel of document.querySelectorAll('[role="tabpanel"]')) {
    const { needs } = panel.dataset;
    if (needs && !there.has(needs)) { panel.remove(); continue; }
    const tab = element('button', { type: 'button', id: `tab-${panel.id}`, textContent: panel.dataset.tab });
    tab.setAttribute('role', 'tab');
    tab.setAttribute('aria-controls', panel.id);
    panel.setAttribute('aria-labelledby', tab.id);
    tab.addEventListener('click', () => selectTab(tab));
    byId('tabs').append(tab);
  }
  selectTab(byId('tabs').firstElementChild);
  byId('tabs').addEventListener('keydown', moveTab);
}

function moveTab(event) {
  const tabs = [...byId('tabs').children], at = tabs.indexOf(document.activeElement);
  const to = { ArrowRight: at + 1, ArrowLeft: at - 1, Home: 0, End: -1 }[event.key];
  if (to === undefined || at < 0) return;
  const tab = tabs.at(to % tabs.length);
  selectTab(tab);
  tab.focus();
  event.preventDefault();
}

function listExamples(then) {
  const list = byId('examples'), groups = [...new Set(data.examples.map((it) => it.group))];
  const options = groups.map((group) => {
    const items = data.examples.flatMap((it, i) => (
      it.group === group ? [element('option', { value: `${i}`, textContent: it.title })] : []));
    return element('optgroup', { label: group }, ...items);
  });
  list.append(element('option', { value: '', textContent: 'choose one' }), ...options);
  list.addEventListener('change', () => {
    if (list.value !== '') chooseExample(data.examples[list.value], then);
  });
}

// What was typed is replaced only if that is wanted.
function chooseExample(example, then) {
  const isTyped = Object.keys(given).some((it) => editors[it].text !== given[it] && /\S/.test(editors[it].text));
  const show = () => { showExample(example); then(); };
  if (!isTyped) { show(); return; }
  askToReplace(`Replace your text by the example “${example.title}”? Ctrl-Z in the editor brings it back.`, show);
}

function showExample({ spec, terms }) { giveTexts({ spec, terms }); }

function askToReplace(question, then) {
  const dialog = byId('replace');
  byId('replace-said').textContent = question;
  byId('replace-yes').onclick = () => { dialog.close('yes'); then(); };
  byId('replace-no').onclick = () => dialog.close('no');
  dialog.onclose = () => { if (dialog.returnValue !== 'yes') byId('examples').value = ''; };
  dialog.returnValue = 'no';
  dialog.showModal();
}

function listenToFiles(then) {
  const picker = byId('file');
  for (const it of document.querySelectorAll('[data-open]')) {
    it.addEventListener('click', () => {
      picker.value = '';
      picker.onchange = () => openFile(it.dataset.open, picker.files[0], then);
      picker.click();
    });
  }
  for (const it of document.querySelectorAll('[data-save]')) {
    const { save } = it.dataset;
    const name = save === 'spec' ? 'specification.rec' : 'terms.trm';
    it.addEventListener('click', () => saveFile(name, editors[save].text));
  }
}

function listenToEditors(soon) {
  const namesThere = () => namesIn(names);
  for (const [name, it] of Object.entries(editors)) {
    it.area.addEventListener('input', soon);
    it.area.addEventListener('undone', ({ detail: { edit, isUndo } }) => undoTogether(it, edit, isUndo));
    listenToBrackets(it, name === 'spec' ? SPEC_BRACKETS : TERM_BRACKETS);
    new Finder(it);
    new Completer(it, namesThere, name === 'spec');
  }
}

// What a word names is asked of a runner of its own, so that no other run ends for it.
function listenToNames(naming) {
  const namer = new Namer(editors.spec, naming);
  byId('rename').addEventListener('click', () => namer.open());
}

function listen(runner, other) {
  // what comes of a run that was asked for is shown, also if it is below the window
  const now = () => evaluate(runner).then(() => byId('said').scrollIntoView({ block: 'nearest' }));
  const soon = () => evaluateSoon(runner);
  listenToEditors(soon);
  for (const id of [...LIMITS.map((it) => it.id), 'count']) byId(id).addEventListener('input', soon);
  byId('run').addEventListener('click', now);
  byId('stop').addEventListener('click', () => { if (runner.stop()) { showBusy(false); say('Stopped.'); } });
  byId('link').addEventListener('click', copyLink);
  byId('help-open').addEventListener('click', showHelp);
  byId('values').addEventListener('keydown', moveCopy);
  document.addEventListener('keydown', (event) => {
    if (event.key === 'Enter' && (event.ctrlKey || event.metaKey)) { event.preventDefault(); now(); }
  });
  window.addEventListener('hashchange', () => { if (readAddress()) now(); });
  for (const it of [listenToTerm, listenToFirings, listenToGraph, listenToCheck, listenToProfile]) it(other);
  listenToFiles(now);
  listExamples(now);
  listCodes();
}

async function start() {
  if (!readAddress()) showExample(data.examples[0]);
  const module = await moduleOfPage();
  const runner = new Runner(module), other = new Runner(module);
  makeTabs(module);
  listen(runner, other);
  listenToNames(new Runner(module));
  await evaluate(runner);
}

start().catch((error) => say(`This browser does not run the engine: ${error.message || error}`));
