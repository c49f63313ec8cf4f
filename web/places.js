// Places in a text: offsets in characters of UTF-16 and in bytes of UTF-8, lines and columns.

// The character that stands after so many bytes of a text.
function characterAt(text, bytes) {
  const start = new TextEncoder().encode(text).subarray(0, bytes);
  return new TextDecoder('utf-8', { ignoreBOM: true }).decode(start).length;
}

// The line and the column of a character, each from 1.
function lineAndColumn(text, at) {
  let line = 1, from = 0;
  for (let end = text.indexOf('\n'); end >= 0 && end < at; end = text.indexOf('\n', from)) {
    line += 1;
    from = end + 1;
  }
  return { line, column: at - from + 1 };
}

// The part of a text from an offset on that is one word, or one character; nothing at its end.
function wordAt(text, from) {
  const word = /[A-Za-z0-9_'-]+|[^\n]|/yu;
  word.lastIndex = from;
  return { from, to: from + word.exec(text)[0].length };
}
