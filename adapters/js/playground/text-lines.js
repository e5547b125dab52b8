'use strict';
// Lines and columns of places in a text.

/**
 * @param {string} text
 * @returns {(at: number) => { line: number, column: number }} the line and the column of a place, both from 1
 */
function linesOf(text) {
  const starts = [0];
  for (let at = text.indexOf('\n'); at >= 0; at = text.indexOf('\n', at + 1)) {
    starts.push(at + 1);
  }
  return (at) => {
    let [low, high] = [0, starts.length];
    while (high - low > 1) {
      const middle = (low + high) >> 1;
      [low, high] = starts[middle] <= at ? [middle, high] : [low, middle];
    }
    return { line: low + 1, column: at - starts[low] + 1 };
  };
}

module.exports = { linesOf };
