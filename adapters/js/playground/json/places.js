'use strict';
// Where the nodes and edges of a document stand in its text.

const { linesOf } = require('../text-lines');
const { meantBy, outlineOf } = require('./outline');

/** An id as a drawing has it. A number stays as it is written. */
const wordsOf = (id) => (id?.text.startsWith('"') ? meantBy(id.text) : id?.text ?? '');

/**
 * All nodes and edges of a text, in the order in which they begin.
 * @param {string} text a document
 * @returns {{ kind: 'node' | 'edge', id: string, text: string, start: number, end: number, line: number, column: number }[]}
 *   the id as a drawing has it, the texts of its labels, the letters between which the element stands, and the line and
 *   column of its id
 */
function placesIn(text) {
  const lineAt = linesOf(text);
  const elements = outlineOf(text).filter(({ kind }) => kind === 'node' || kind === 'edge');
  return elements.map(({ kind, id, texts, start, end }) => ({
    ...{ kind, id: wordsOf(id), text: texts.join(' '), start, end },
    ...lineAt(id?.start ?? start),
  }));
}

module.exports = { placesIn };
