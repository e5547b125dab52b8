'use strict';
// Lines and rectangles of a drawing. Points of curves and places of labels come from calculations with fractions, so that
// things count as apart that meet by less than this.

const NOISE = 1e-6;

/** A box as a rectangle. */
const rectOfBox = ({ x, y, w, h }) => ({ x0: x, y0: y, x1: x + w, y1: y + h });

const overlap = (a, b) => a.x0 < b.x1 - NOISE && b.x0 < a.x1 - NOISE && a.y0 < b.y1 - NOISE && b.y0 < a.y1 - NOISE;

/** Whether a rectangle lies within another one. */
const isIn = (a, b) => a.x0 >= b.x0 - NOISE && a.y0 >= b.y0 - NOISE && a.x1 <= b.x1 + NOISE && a.y1 <= b.y1 + NOISE;

const isOutside = (p, { x0, y0, x1, y1 }) => p.x < x0 - NOISE || p.x > x1 + NOISE || p.y < y0 - NOISE || p.y > y1 + NOISE;
const isInside = (p, { x0, y0, x1, y1 }) => p.x > x0 + NOISE && p.x < x1 - NOISE && p.y > y0 + NOISE && p.y < y1 - NOISE;

/** From which part of a line to which it lies between two limits, by its start and its way along an axis. */
function stretchBetween(start, way, low, high) {
  if (way === 0) {
    return start > low + NOISE && start < high - NOISE ? [0, 1] : [1, 0];
  }
  return [(low - start) / way, (high - start) / way].sort((one, other) => one - other);
}

/** Whether a line reaches into a rectangle. */
function reachesInto([p, q], { x0, y0, x1, y1 }) {
  const [flat, upright] = [stretchBetween(p.x, q.x - p.x, x0, x1), stretchBetween(p.y, q.y - p.y, y0, y1)];
  return Math.max(0, flat[0], upright[0]) + NOISE < Math.min(1, flat[1], upright[1]);
}

module.exports = { isIn, isInside, isOutside, overlap, reachesInto, rectOfBox };
