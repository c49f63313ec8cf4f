// The tab of the help: the language, the keys, and the meaning of all codes.

function listCodes() {
  byId('codes').replaceChildren(...data.codes.flatMap(({ code, meaning, examples, fix }) => [
    element('dt', { id: `code-${code}`, tabIndex: -1 }, code),
    element('dd', {}, ...withCode(meaning), ...moreOf('Examples', examples), ...moreOf('Fix', fix)),
  ]));
}

function moreOf(name, text) {
  return text ? [element('div', {}, element('span', { className: 'hint' }, `${name}: `), ...withCode(text))] : [];
}

function showHelp() { selectTab(byId('tab-help')); }

// Shows the explanation of a code.
function showCode(code) {
  showHelp();
  const entry = byId(`code-${code}`);
  for (const it of byId('codes').querySelectorAll('.asked')) it.classList.remove('asked');
  entry.classList.add('asked');
  entry.focus({ preventScroll: true });
  entry.scrollIntoView({ block: 'center' });
}
