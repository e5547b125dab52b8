'use strict';
// Lays the text of a document out anew. Each value stays as it is written, so that no number changes.

const { tokensOf } = require('./tokens');

const WIDTH = 100;
const STEP = 2;

const CLOSING = { '{': '}', '[': ']' };

const isClosing = (token) => token === '}' || token === ']';

/** How long each array and object is on one line, by where it begins. */
function lengthsOf(text) {
  const lengths = new Map();
  const open = [];
  let length = 0;
  for (const { text: token, start } of tokensOf(text)) {
    if (CLOSING[token]) {
      open.push({ start, before: length });
    }
    // A comma and a colon have a blank behind them, and an object has one within each of its braces.
    length += token.length + (',:{}'.includes(token) ? 1 : 0);
    if (isClosing(token)) {
      const { start: from, before } = open.pop();
      lengths.set(from, length - before);
    }
  }
  return lengths;
}

/** The blanks between a token and the last one. */
function gapBefore(token, last, { isFlat, depth }) {
  if (last === '' || token === ',' || token === ':' || CLOSING[last] === token) {
    return '';
  }
  if (last === ':') {
    return ' ';
  }
  if (isFlat) {
    return last === ',' || last === '{' || token === '}' ? ' ' : '';
  }
  return `\n${' '.repeat(STEP * depth)}`;
}

/**
 * @param {string} text a document of JSON without a fault
 * @returns {string} the same with a line for each element where it fits, and a step for each level
 */
function formatted(text) {
  const lengths = lengthsOf(text);
  const open = [];
  let [made, last, column] = ['', '', 0];
  for (const { text: token, start } of tokensOf(text)) {
    const isFlat = (isClosing(token) ? open.pop() : open.at(-1)) === true;
    const gap = gapBefore(token, last, { isFlat, depth: open.length });
    column = (gap.startsWith('\n') ? gap.length - 1 : column + gap.length) + token.length;
    made += gap + token;
    if (CLOSING[token]) {
      // The outermost value has lines of its own however short it is.
      open.push(isFlat || (open.length > 0 && column + lengths.get(start) <= WIDTH));
    }
    last = token;
  }
  return `${made}\n`;
}

module.exports = { formatted };
