'use strict';
// A placed document told relative to parents and containers, whatever it asks to be told relative to. It shares no code with
// what tells it.

const { Scene, list, num, wordOf } = require('./scene');

const SHAPES = ['PARENT', 'ROOT'];
const EDGES = ['CONTAINER', 'PARENT', 'ROOT'];

/** What a node asks for, or else what counts around it. */
function modeOf(node, name, modes, around) {
  const asked = wordOf(node, name, '');
  return modes.includes(asked) ? asked : around;
}

const shift = (place, by) => Object.assign(place, { x: num(place.x) + by.x, y: num(place.y) + by.y });
const shiftBack = (place, by) => shift(place, { x: -by.x, y: -by.y });

/** Makes the places of a node's ports and labels relative to what they stand at. */
function freeParts(node, at) {
  for (const port of list(node.ports)) {
    list(port.labels).forEach((label) => shiftBack(label, port));
    shiftBack(port, at);
  }
  list(node.labels).forEach((label) => shiftBack(label, at));
}

/** Makes the places in a node relative to their parents; `at` is where it stands itself, by `mode` of its parent. */
function freeShapes(node, parent) {
  const at = { x: num(node.x), y: num(node.y) };
  if (parent?.mode === 'ROOT') {
    freeParts(node, at);
    shiftBack(node, parent);
  } else if (parent) {
    shift(at, parent);
  }
  const mode = modeOf(node, 'json.shapeCoords', SHAPES, parent?.mode ?? 'PARENT');
  list(node.children).forEach((child) => freeShapes(child, { ...at, mode }));
}

/** Moves all points of an edge, and its labels. */
function shiftEdge({ sections, junctionPoints, labels }, by) {
  const points = list(sections).flatMap(({ startPoint, bendPoints, endPoint }) => [startPoint, ...list(bendPoints), endPoint]);
  [...points, ...list(junctionPoints), ...list(labels)].forEach((point) => shift(point, by));
}

function freeEdges(scene, node, around) {
  const mode = modeOf(node.json, 'json.edgeCoords', EDGES, around);
  for (const edge of scene.edges.filter(({ at }) => at === node)) {
    const own = scene.containerOf(edge).box;
    const base = { CONTAINER: own, PARENT: node.box, ROOT: { x: 0, y: 0 } }[mode];
    shiftEdge(edge.json, { x: base.x - own.x, y: base.y - own.y });
  }
  node.children.forEach((child) => freeEdges(scene, child, mode));
}

/**
 * @param {object} placed stays as it is
 * @returns {object} the same in the coordinates of parents and containers
 */
function relative(placed) {
  // Points may be shared between elements.
  const copy = JSON.parse(JSON.stringify(placed));
  freeShapes(copy);
  const scene = new Scene(copy);
  freeEdges(scene, scene.root, 'CONTAINER');
  return copy;
}

module.exports = { relative };
