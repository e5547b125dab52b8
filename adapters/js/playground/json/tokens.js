'use strict';
// The marks and words of a text of JSON, each with its place.

const MARKS = '{}[],:';

const [QUOTE, BACKSLASH, LINE] = ['"', '\\', '\n'].map((letter) => letter.charCodeAt(0));

const isBlank = (code) => code === 32 || (code >= 9 && code <= 13) || code === 0xa0 || code === 0xfeff;

// For codes of ASCII, whether a word ends before it.
const ENDS = Array.from({ length: 128 }, (_, code) => isBlank(code) || code === QUOTE || MARKS.includes(String.fromCharCode(code)));

/** Where a text ends that begins at a place: behind its quote, or at the end of the line. */
function endOfText(text, start) {
  for (let at = start + 1; at < text.length; at += 1) {
    const code = text.charCodeAt(at);
    if (code === QUOTE) {
      return at + 1;
    }
    if (code === LINE) {
      return at;
    }
    at += code === BACKSLASH ? 1 : 0;
  }
  return text.length;
}

function endOfWord(text, start) {
  let at = start + 1;
  while (at < text.length && !(ENDS[text.charCodeAt(at)] ?? isBlank(text.charCodeAt(at)))) {
    at += 1;
  }
  return at;
}

/**
 * All texts, words, numbers and marks of a text, without the blanks between them.
 * @param {string} text
 * @param {number} [from] the place of the first one
 * @returns {Generator<{ text: string, start: number, end: number }>}
 */
function* tokensOf(text, from = 0) {
  for (let start = from; start < text.length; ) {
    const code = text.charCodeAt(start);
    if (isBlank(code)) {
      start += 1;
    } else {
      const isMark = MARKS.includes(text[start]);
      const end = isMark ? start + 1 : code === QUOTE ? endOfText(text, start) : endOfWord(text, start);
      yield { text: text.slice(start, end), start, end };
      start = end;
    }
  }
}

/** A text of JSON without its quotes, whether it has an end or not. */
const bareOf = (token = '') => token.replace(/^"/, '').replace(/"$/, '');

module.exports = { bareOf, tokensOf };
