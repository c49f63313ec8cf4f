// Loads scripts of web/ together, as the page and its workers do: load(['run', 'steps'], ['callsOf', 'readTrace']).
'use strict';
const fs = require('fs');
const path = require('path');

module.exports = function load(scripts, names) {
  const texts = scripts.map((it) => fs.readFileSync(path.join(__dirname, '..', 'web', `${it}.js`), 'utf8'));
  return new Function('module', `${texts.join('\n')}\nreturn { ${names.join(', ')} };`)(undefined);
};
