'use strict';
// What can be written at a place of a document, by the data of the options and of the members that elements have.

const { OPTIONS, nameOf, valuesOf } = require('../options');
const { step } = require('./frames');
const MEMBERS = require('./members.json');
const { bareOf, tokensOf } = require('./tokens');

const PREFIX = 'elk.';

// What each element reads; a level is a node.
const READ = { node: ['levels', 'nodes'], port: ['ports'], edge: ['edges'], label: ['labels'] };

const ENDS = ['sources', 'targets', 'source', 'target'];

/** The array or object around a place, and the token at it. */
function contextAt(text, at) {
  const open = [];
  for (const token of tokensOf(text)) {
    const isAt = token.start < at && at <= token.end && /^["\w.+-]/.test(token.text);
    if (isAt || token.start >= at) {
      return { frame: open.at(-1), token: isAt ? token : undefined };
    }
    step(open, token.text);
  }
  return { frame: open.at(-1), token: undefined };
}

const helpOf = (option) =>
  `${PREFIX}${option.name}: ${valuesOf(option)}${option.default === '' ? '' : `; default ${option.default}`}`;

const optionsOf = (kind) => [...OPTIONS.values()].filter(({ at }) => [at].flat().some((it) => READ[kind].includes(it)));

/** The values of an option, each as text of JSON; of one with a number or a text of its own form, the default. */
function valuesIn({ type, values, default: byDefault }) {
  if (values) {
    return values.map((value) => (type === 'BOOLEAN' ? value : JSON.stringify(value)));
  }
  const isNumber = /^-?\d+$/.test(byDefault);
  // A number may be none by default.
  return [isNumber ? byDefault : type === 'INT' ? '0' : JSON.stringify(byDefault)];
}

/** All that may stand at a place. */
function offersAt({ frame, token }, ids) {
  const isKey = frame?.mark === '{' && !frame.isValue;
  if (isKey && frame.optionsOf) {
    return optionsOf(frame.optionsOf).map((option) => ({ text: `"${PREFIX}${option.name}"`, help: helpOf(option), isKey }));
  }
  if (isKey && frame.kind) {
    return MEMBERS[frame.kind].map((name) => ({ text: `"${name}"`, help: '', isKey }));
  }
  if (frame?.optionsOf) {
    const option = OPTIONS.get(nameOf(frame.key));
    return option ? valuesIn(option).map((text) => ({ text, help: helpOf(option) })) : [];
  }
  const isEnd = ENDS.includes(frame?.mark === '[' ? frame.name : frame?.key);
  return isEnd && (token || frame.mark === '[') ? ids.map((id) => ({ text: JSON.stringify(id), help: '' })) : [];
}

/**
 * What can be written at a place: options, their values, members of elements, and ids at the ends of edges.
 * @param {string} text a document, which may have faults
 * @param {number} at the caret, in letters from the beginning
 * @param {string[]} [ids] those of the nodes
 * @returns {{ from: number, to: number, list: { text: string, help: string }[] }} what is written instead of which
 *   letters, what begins with the written letters first
 */
function completionAt(text, at, ids = []) {
  const context = contextAt(text, at);
  const { token } = context;
  // An option is found by any part of its name.
  const written = bareOf(token?.text.slice(0, at - token.start)).toLowerCase().replace(/^(org\.eclipse\.)?elk\./, '');
  // Of a text without its end the rest of the line is no part.
  const isOpen = token?.text.startsWith('"') && !/^".*"$/.test(token.text);
  const [from, to] = token ? [token.start, isOpen ? at : token.end] : [at, at];
  const hasColon = /^\s*:/.test(text.slice(to));
  const offers = offersAt(context, ids).filter((it) => it.text.toLowerCase().includes(written));
  const rankOf = (it) => (bareOf(it.text).toLowerCase().replace(PREFIX, '').startsWith(written) ? 0 : 1);
  const list = offers
    .sort((one, other) => rankOf(one) - rankOf(other))
    .map(({ text: word, help, isKey }) => ({ text: isKey && !hasColon ? `${word}: ` : word, help }));
  return { from, to, list };
}

/** What is to be known of the option at a place: its values and its default; nothing if there is none. */
function helpAt(text, at) {
  const { frame, token } = contextAt(text, at);
  const key = frame?.optionsOf && (frame.isValue ? frame.key : bareOf(token?.text));
  const option = key ? OPTIONS.get(nameOf(key)) : undefined;
  return option ? helpOf(option) : '';
}

module.exports = { completionAt, helpAt };
