'use strict';
// The part of a drawing that a stage shows, in units of the drawing: where it begins and how large it is.

// A small picture isn't blown up beyond this.
const MOST_FIT = 2;

const CLOSEST = 40;
const FARTHEST = 0.005;

// So large, as a part of the stage, a node is shown that was looked for.
const FOUND = 0.25;

/** The part with a box in its middle, so many pixels for a unit. */
function around({ x, y, width: wide, height: high }, { clientWidth, clientHeight }, scale) {
  const [width, height] = [clientWidth / scale, clientHeight / scale];
  return { x: x + (wide - width) / 2, y: y + (high - height) / 2, width, height };
}

/** The part with all of the drawing in its middle. */
function fitted(whole, size) {
  const scale = Math.min(size.clientWidth / whole.width, size.clientHeight / whole.height, MOST_FIT) || 1;
  return around(whole, size, scale);
}

/** The part with a node in its middle, large enough to be read. */
function closeTo(box, size) {
  const scale = Math.min((size.clientWidth * FOUND) / box.width, (size.clientHeight * FOUND) / box.height, MOST_FIT);
  return around(box, size, scale);
}

/** A part that is larger or smaller, so that a point of the stage stays where it is. */
function zoomed(part, { clientWidth }, by, at) {
  const scale = part.width / clientWidth;
  const next = Math.min(Math.max(scale / by, 1 / CLOSEST), 1 / FARTHEST) / scale;
  return {
    x: part.x + at.x * scale * (1 - next),
    y: part.y + at.y * scale * (1 - next),
    width: part.width * next,
    height: part.height * next,
  };
}

/** A part that is moved by pixels of the stage. */
function moved(part, { clientWidth }, x, y) {
  const scale = part.width / clientWidth;
  return { ...part, x: part.x - x * scale, y: part.y - y * scale };
}

/** A part of a stage that has another size now. */
function resized(part, { clientWidth, clientHeight }) {
  const { width, height } = part;
  return { ...part, height: (width * clientHeight) / clientWidth || height };
}

module.exports = { closeTo, fitted, moved, resized, zoomed };
