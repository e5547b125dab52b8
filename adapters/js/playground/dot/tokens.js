'use strict';
// The words and marks of a text in DOT, each with its place.

const COMMENT = /\/\/[^\n]*|\/\*[^]*?(?:\*\/|$)|(?<![^\n])#[^\n]*/y;

const TOKEN = /"(?:[^"\\]|\\[^])*"?|->|--|[A-Za-z_\u0080-\uffff][\w\u0080-\uffff]*|-?(?:\.\d+|\d+(?:\.\d*)?)|[^]/y;

const KEYWORD = /^(?:strict|graph|digraph|node|edge|subgraph)$/i;

/** Where a text of HTML ends that begins at a place: behind the bracket that closes it. */
function endOfHtml(text, start) {
  let depth = 0;
  for (let at = start; at < text.length; at += 1) {
    depth += text[at] === '<' ? 1 : text[at] === '>' ? -1 : 0;
    if (depth === 0) {
      return at + 1;
    }
  }
  return text.length;
}

/** What a token names; undefined for keywords and marks. */
function nameIn(token) {
  if (token.startsWith('"')) {
    return token.replace(/^"|"$/g, '').replace(/\\\n/g, '').replace(/\\"/g, '"');
  }
  return /^[\w.\u0080-\uffff]|^-[.\d]/.test(token) && !KEYWORD.test(token) ? token : undefined;
}

function endAt(pattern, text, at) {
  pattern.lastIndex = at;
  return pattern.test(text) ? pattern.lastIndex : at;
}

/**
 * All words and marks of a text, without blanks and comments.
 * @param {string} text
 * @returns {Generator<{ text: string, name?: string, start: number, end: number }>} the name is that of a node, an
 *   attribute, or a value
 */
function* tokensOf(text) {
  for (let start = 0; start < text.length; ) {
    const behind = endAt(COMMENT, text, start);
    if (behind > start) {
      start = behind;
    } else if (/\s/.test(text[start])) {
      start += 1;
    } else {
      const end = text[start] === '<' ? endOfHtml(text, start) : endAt(TOKEN, text, start);
      const token = text.slice(start, end);
      yield { text: token, name: nameIn(token), start, end };
      start = end;
    }
  }
}

module.exports = { tokensOf };
