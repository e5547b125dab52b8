'use strict';
// The arrays and objects around a place of a document, and which elements they are.

const { bareOf } = require('./tokens');

const KINDS = { children: 'node', ports: 'port', edges: 'edge', labels: 'label' };

const HOLDERS = ['layoutOptions', 'properties'];

/** An array or object that begins. What it is depends on what holds it. */
function frameOf(mark, holder) {
  const name = holder?.mark === '[' ? holder.name : holder?.key;
  const isElement = mark === '{' && (holder === undefined || (holder.mark === '[' && KINDS[name] !== undefined));
  const isOptions = mark === '{' && holder?.kind !== undefined && HOLDERS.includes(name);
  const kind = isElement ? KINDS[name] ?? 'node' : undefined;
  return { mark, name, kind, optionsOf: isOptions ? holder.kind : undefined, key: undefined, isValue: mark === '[' };
}

/**
 * Goes on behind a token.
 * @param {object[]} open the arrays and objects around it, from the outside in; changed in place
 */
function step(open, token) {
  const frame = open.at(-1);
  if (token === '{' || token === '[') {
    open.push(frameOf(token, frame));
  } else if (token === '}' || token === ']') {
    open.pop();
  } else if (token === ':' && frame) {
    frame.isValue = true;
  } else if (token === ',' && frame) {
    frame.isValue = frame.mark === '[';
  } else if (frame && !frame.isValue) {
    frame.key = bareOf(token);
  }
}

module.exports = { step };
