'use strict';
// Colours of texts in DOT and of lines in the editor.

const KEYWORDS = /^(?:strict|graph|digraph|subgraph|node|edge)$/i;

/** What a letter or a word is, as the editor names it. */
function tokenOf(stream, state) {
  if (state.isComment) {
    state.isComment = !stream.match(/.*?\*\//) && (stream.skipToEnd(), true);
    return 'comment';
  }
  if (stream.match('/*')) {
    state.isComment = true;
    return 'comment';
  }
  if (stream.match(/\/\/.*/) || (stream.sol() && stream.match(/#.*/))) {
    return 'comment';
  }
  if (stream.match(/"(?:[^"\\]|\\.)*"?/)) {
    return 'string';
  }
  if (stream.match(/->|--/)) {
    return 'operator';
  }
  if (stream.match(/-?(?:\.\d+|\d+(?:\.\d*)?)/)) {
    return 'number';
  }
  const [word] = stream.match(/[A-Za-z_\u0080-\uffff][\w\u0080-\uffff]*/) ?? [];
  if (word) {
    return KEYWORDS.test(word) ? 'keyword' : stream.match(/\s*=/, false) ? 'property' : null;
  }
  stream.next();
  return null;
}

/** Makes the mode known to the editor. */
function define(CodeMirror) {
  CodeMirror.defineMode('dot', () => ({
    startState: () => ({ isComment: false }),
    token: (stream, state) => (stream.eatSpace() ? null : tokenOf(stream, state)),
    lineComment: '//',
  }));
}

module.exports = { define };
