'use strict';
// Faults and warnings as the page shows them.

// Whoever has read so many has found the reason.
const MOST_TOLD = 100;

// What is written at the place itself can be mended there; other warnings are about a part of what stands there.
const MENDED = new Set([undefined, 'unknownOption', 'shortOption', 'unknownMember']);

/** The place is told apart from the sentence. */
const withoutPlace = (message) => message.replace(/^([^:]*: )?line \d+, column \d+: /, '$1');

/** What the page tells of a fault or a warning, with what was meant, as it is to be written instead. */
const briefly = ({ message, line, column, near, kind }) => ({
  ...{ message: withoutPlace(message), line, column },
  ...(near !== undefined && MENDED.has(kind) && { mend: JSON.stringify(near) }),
});

const inOrder = (one, other) => one.line - other.line || one.column - other.column || 0;

/**
 * The first faults and warnings, in the order of the text.
 * @param {{ severity: 'fault' | 'warning', message: string, line?: number, column?: number }[]} lint what the program tells
 */
function told(lint) {
  const all = (severity) => lint.filter((it) => it.severity === severity);
  const first = (list) => list.slice(0, MOST_TOLD).map(briefly).sort(inOrder);
  const [faults, warnings] = [all('fault'), all('warning')];
  return { faults: first(faults), warnings: first(warnings), counts: { faults: faults.length, warnings: warnings.length } };
}

module.exports = { told };
