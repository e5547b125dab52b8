'use strict';
// Pictures of placed graphs, in Node. Pages have page/svg.mjs instead.

const { ProgramError } = require('./errors');
const { taken } = require('./graph/taken');
const { runText } = require('./module');
const { programHere } = require('./module/here');

/**
 * Draws a placed graph.
 * @param {object} placed a graph with places, from any program
 * @param {object} [look]
 * @param {boolean} [look.arrows] whether edges have arrow heads
 * @param {'auto' | 'light' | 'dark'} [look.theme]
 * @returns {string} an SVG document
 */
function toSvg(placed, { arrows = true, theme = 'auto' } = {}) {
  const words = ['--placed', ...(theme === 'auto' ? [] : [`--${theme}`]), ...(arrows ? [] : ['--no-arrows'])];
  const { status, output, errors } = runText(programHere(), words, JSON.stringify(taken(placed, { isPlaced: true }).sent));
  if (status !== 0) {
    throw new ProgramError(errors.trim(), { status });
  }
  return output;
}

module.exports = { toSvg };
