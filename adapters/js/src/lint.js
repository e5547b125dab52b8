'use strict';
// All that can be said of the text of a graph before it is laid out, in Node. Pages have page/lint.mjs instead.

const { ProgramError } = require('./errors');
const { replyTo } = require('./module');
const { programHere } = require('./module/here');

/**
 * All faults and warnings of the text of a graph, without a layout.
 * @param {string} text
 * @param {object} [given]
 * @param {Record<string, unknown>} [given.layoutOptions] options of every element that has none of its own
 * @param {'ceil' | 'exact'} [given.numbers] whether numbers are rounded, or fractions refused
 * @returns {object[]} first the faults, in the order of the rules, then the warnings; each with its place in the text
 */
function lint(text, { layoutOptions: options = {}, numbers = 'ceil' } = {}) {
  const request = JSON.stringify({ text, options, numbers, give: ['lint'] });
  const { lint: found, fault } = JSON.parse(replyTo(programHere(), request));
  if (!found) {
    throw new ProgramError(fault.message);
  }
  return found;
}

module.exports = { lint };
