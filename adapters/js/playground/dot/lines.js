'use strict';
// The words and marks of lines such as `a -> b : label`: DOT without its frame, with labels behind a colon and names that may have
// blanks. The program reads the same lines (crates/dot_syntax/src/lines.rt).

const { tokensOf } = require('./tokens');

const BLANKS = '[ \\t\\r]*';

const ARROW = /->|--/;

// A name without quotes has none of the marks of DOT.
const NAME = /"(?:[^"\\]|\\.)*"|(?:(?!->|--)[^ \t\r"[\]{};=:<>,/#])+(?:[ \t]+(?:(?!->|--)[^ \t\r"[\]{};=:<>,/#])+)*/;

const PARTS = new RegExp(`(${NAME.source})|${ARROW.source}`, 'g');

const CHAIN = `(?:${NAME.source})(?:${BLANKS}(?:${ARROW.source})${BLANKS}(?:${NAME.source}))*`;

const LINE = new RegExp(`^(${BLANKS})(${CHAIN})${BLANKS}(?::([^]*))?$`);

/** A name as the program keeps it: a backslash in one without quotes is doubled. */
const nameOf = (name) => (name?.startsWith('"') ? [...tokensOf(name)][0].name : name?.replace(/\\/g, '\\\\'));

/** The names and arrows of a line, where they end, and whether a label follows; undefined if it is no chain. */
function chainOf(line) {
  const [, indent, chain, label] = LINE.exec(line) ?? [];
  // The port of an edge stands behind a colon as well.
  if (chain === undefined || (label !== undefined && !ARROW.test(chain.replace(/"(?:[^"\\]|\\.)*"/g, '')) && ARROW.test(label))) {
    return undefined;
  }
  const parts = [...chain.matchAll(PARTS)].map(({ 0: text, 1: name, index }) => ({
    ...{ text, name: nameOf(name), start: indent.length + index, end: indent.length + index + text.length },
  }));
  return { parts, hasLabel: Boolean(label?.trim()), end: indent.length + chain.length };
}

/** The words and marks of a statement of DOT, in which a label may stand behind a blank and a colon. */
function statementOf(line) {
  const parts = [...tokensOf(line)];
  const at = parts.findIndex(({ text, start }, number) => text === ':' && start > (parts[number - 1]?.end ?? 0));
  return at === -1 ? { parts, hasLabel: false, end: line.length } : { parts: parts.slice(0, at), hasLabel: true, end: parts[at - 1]?.end ?? 0 };
}

/** The words and marks of lines, as those of a text in DOT. All their edges are directed. */
function* tokensOfLines(text) {
  let start = 0;
  for (const line of text.split('\n')) {
    const { parts, hasLabel, end } = chainOf(line) ?? statementOf(line);
    for (const token of parts) {
      const mark = token.text === '--' ? '->' : token.text;
      yield { text: mark, name: token.name, start: start + token.start, end: start + token.end };
    }
    // A label is as the attributes of DOT are.
    const [from, to] = [start + end, start + line.length];
    yield* (hasLabel ? ['[', ']', ';'] : [';']).map((mark) => ({ text: mark, name: undefined, start: from, end: to }));
    start += line.length + 1;
  }
}

module.exports = { tokensOfLines };
