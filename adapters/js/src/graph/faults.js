'use strict';
// What a graph holds that can't be sent, in words: the program never sees it.

const { Refusal } = require('../errors');

// How many letters of either end of a long path a message has.
const MOST_OF_PATH = 60;

const LEVELS = 50;

/** The steps to a member as a script would write them. */
function pathOf(steps) {
  const parts = steps.map((step) =>
    typeof step === 'number' ? `[${step}]` : /^[A-Za-z_$][\w$]*$/.test(step) ? `.${step}` : `[${JSON.stringify(step)}]`,
  );
  return parts.join('').replace(/^\./, '') || 'the document';
}

const shortened = (path) =>
  path.length > 3 * MOST_OF_PATH ? `${path.slice(0, MOST_OF_PATH)}…${path.slice(-MOST_OF_PATH)}` : path;

const refusal = (rule, name, words, detail, more) =>
  new Refusal({ rule, name, id: undefined, ...more, detail, message: `${words}: ${detail} (rule ${rule}, ${name})` });

/** Nodes that are nested deeper than the program reads, or in themselves. */
function tooDeep(steps) {
  const path = pathOf(steps);
  const found = LEVELS + 1;
  const detail = `${shortened(path)} is inside ${found} nodes`;
  const words = `nodes are nested more than ${LEVELS} levels deep`;
  return refusal(6, 'TooDeep', words, detail, { steps, path, found, allowed: String(LEVELS) });
}

/** More values than fit into a document. */
const tooLong = (steps) =>
  refusal(0, 'TooLong', 'the document is longer than 2^24 bytes', `it goes on at ${shortened(pathOf(steps))}`, { steps, path: pathOf(steps) });

/** A text with half of a surrogate pair, which no JSON can hold. */
function halfPair(steps) {
  const path = pathOf(steps);
  return refusal(1, 'NotJson', 'the document is not JSON', `${shortened(path)}: a string has half of a surrogate pair`, { steps, path });
}

/** A value that JSON can't hold, or that can't be read. */
class Unreadable extends TypeError {
  constructor(steps, words, cause) {
    const path = pathOf(steps);
    super(`${shortened(path)} ${words}`, cause && { cause });
    Object.assign(this, { path, steps });
  }
}

module.exports = { LEVELS, Unreadable, halfPair, tooDeep, tooLong };
