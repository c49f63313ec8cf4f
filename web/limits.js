// The limits of a run: numbers that are typed, each with its range.

const LIMITS = [
  { id: 'steps', name: 'Steps', least: 0n, most: 10n ** 18n },
  { id: 'cells', name: 'Cells', least: 1n, most: 1n << 30n },
  { id: 'memo', name: 'Memo', least: 0n, most: 1n << 20n },
  { id: 'reclaim', name: 'Reclaim', least: 1n, most: 1n << 30n },
];

// The number that a text is, if it is one within a range; else null.
function numberWithin(text, { least, most }) {
  const digits = text.replace(/[\s,_]/g, '');
  if (!/^\d{1,40}$/.test(digits)) return null;
  const number = BigInt(digits);
  return least <= number && number <= most ? number : null;
}

function rangeOf({ name, least, most }) {
  return `${name} is a whole number from ${least.toLocaleString('en')} to ${most.toLocaleString('en')}.`;
}

// Marks a limit that is wrong, with a sentence beside it.
function markLimit(limit, isGood) {
  const input = byId(limit.id), label = input.closest('label');
  input.setAttribute('aria-invalid', String(!isGood));
  if (isGood) {
    label.querySelector('.wrong')?.remove();
    input.removeAttribute('aria-describedby');
  } else if (!label.querySelector('.wrong')) {
    label.append(element('span', { className: 'wrong', id: `${limit.id}-wrong` }, rangeOf(limit)));
    input.setAttribute('aria-describedby', `${limit.id}-wrong`);
  }
}

// The names of the limits that are wrong.
function wrongLimits() {
  return LIMITS.filter((it) => byId(it.id).getAttribute('aria-invalid') === 'true').map((it) => it.name);
}

// The limits as they are typed, or null where one is wrong: then it is marked.
function limitsAsked() {
  const numbers = LIMITS.map((it) => numberWithin(byId(it.id).value, it));
  LIMITS.forEach((it, i) => markLimit(it, numbers[i] !== null));
  if (numbers.includes(null)) return null;
  const [steps, cells, memo, reclaim] = numbers;
  return { steps, cells: Number(cells), memo: Number(memo), reclaim: Number(reclaim), count: byId('count').checked };
}
