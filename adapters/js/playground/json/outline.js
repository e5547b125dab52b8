'use strict';
// The elements of a document, read from its text with the place of each.

const { nameOf } = require('../options');
const { step } = require('./frames');
const { bareOf, tokensOf } = require('./tokens');

const SIZED = 'nodeSize.constraints';

/** A text of JSON as what it means; one that is broken, without its quotes. */
function meantBy(token) {
  try {
    return JSON.parse(token);
  } catch {
    return bareOf(token);
  }
}

const opened = (frame, { start }, text) =>
  frame.kind ? { kind: frame.kind, start, end: text.length, id: undefined, members: new Set(), texts: [], isLevel: false, isSized: false } : undefined;

/** Takes a value into the element that it belongs to. */
function takeValue(open, token) {
  const { element, key } = open.at(-1);
  if (key === 'id') {
    element.id = token;
  } else if (key === 'text' && element.kind === 'label' && token.text.startsWith('"')) {
    // Its label stands in an array of the element that has the label.
    open.at(-3)?.element?.texts.push(meantBy(token.text));
  }
}

/** Takes the name of a member or of an option. */
function takeName(open, token) {
  const frame = open.at(-1);
  const name = bareOf(token.text);
  if (frame.element) {
    frame.element.members.add(name);
  } else if (frame.optionsOf && name.endsWith('constraints') && nameOf(name) === SIZED) {
    open.at(-2).element.isSized = true;
  }
}

/**
 * All elements of a document, in the order in which they begin.
 * @param {string} text
 * @returns {{ kind: 'node' | 'port' | 'edge' | 'label', start: number, end: number, id?: object, members: Set<string>,
 *   texts: string[], isLevel: boolean, isSized: boolean }[]} the letters between which each stands, the token of its id,
 *   the names of its members, the texts of its labels, whether nodes stand in it, and whether it asks for a size by its
 *   labels; none if a bracket is left open
 */
function outlineOf(text) {
  const [all, open] = [[], []];
  for (const token of tokensOf(text)) {
    const frame = open.at(-1);
    if (token.text === '}' && frame?.element) {
      frame.element.end = token.end;
    } else if (frame?.isValue && frame.element && !'{[,'.includes(token.text)) {
      takeValue(open, token);
    } else if (frame && !frame.isValue && token.text.startsWith('"')) {
      takeName(open, token);
    }
    step(open, token.text);
    const inner = open.at(-1);
    if (token.text === '{' && inner.kind) {
      inner.element = opened(inner, token, text);
      all.push(inner.element);
      if (inner.kind === 'node' && open.length > 2) {
        open.at(-3).element.isLevel = true;
      }
    }
  }
  return open.length > 0 ? [] : all;
}

module.exports = { meantBy, outlineOf };
