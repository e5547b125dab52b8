'use strict';
// Numbers drawn by chance from a seed, the same in every run.

/** Draws for a seed: parts of 1, numbers below a limit or from low to high, whether what has a probability is, one of a list. */
function chance(seed) {
  let state = seed >>> 0;
  const next = () => {
    state = (state + 0x6d2b79f5) >>> 0;
    let mixed = Math.imul(state ^ (state >>> 15), state | 1);
    mixed ^= mixed + Math.imul(mixed ^ (mixed >>> 7), mixed | 61);
    return ((mixed ^ (mixed >>> 14)) >>> 0) / 2 ** 32;
  };
  const below = (limit) => Math.floor(next() * limit);
  return {
    part: next,
    below,
    from: (low, high) => low + below(high - low + 1),
    is: (probability) => next() < probability,
    of: (list) => list[below(list.length)],
  };
}

module.exports = { chance };
