'use strict';
// From the caret to what it stands in.

/**
 * The innermost element around a letter; undefined if there is none.
 * @param {{ start: number, end: number, isWord?: boolean }[]} places in the order in which they begin; a word also has
 *   the caret that stands right behind it
 * @param {number} at
 */
function elementAt(places, at) {
  // Only the elements that begin before it can hold it, and those around it end behind it.
  let [low, high] = [0, places.length];
  while (low < high) {
    const middle = (low + high) >> 1;
    [low, high] = places[middle].start <= at ? [middle + 1, high] : [low, middle];
  }
  return places.slice(0, low).findLast(({ end, isWord }) => at < end || (isWord && at === end));
}

module.exports = { elementAt };
