'use strict';
// What slanted and curved routes of a placed document meet, found at points along them.

const { Scene, isWithin, list } = require('./scene');

const STEPS = 24;

// Points are compared after calculations with fractions.
const NOISE = 1e-6;

const between = (a, b, t) => ({ x: a.x + (b.x - a.x) * t, y: a.y + (b.y - a.y) * t });

/** A point of the curve of some control points. */
function pointAt(controls, t) {
  let points = controls;
  while (points.length > 1) {
    points = points.slice(1).map((b, k) => between(points[k], b, t));
  }
  return points[0];
}

/** The pieces of a route, each by its control points: four for a curve, two for a line. */
function piecesOf(points, isCurved) {
  const step = isCurved && points.length > 2 ? 3 : 1;
  return Array.from({ length: (points.length - 1) / step }, (_, k) => points.slice(k * step, (k + 1) * step + 1));
}

const samplesOf = (points, isCurved) =>
  piecesOf(points, isCurved).flatMap((piece) => Array.from({ length: STEPS + 1 }, (_, k) => pointAt(piece, k / STEPS)));

const isStraight = (piece) => piece.every(({ x }) => x === piece[0].x) || piece.every(({ y }) => y === piece[0].y);

/** A route as straight lines, in which a piece that runs straight is one of them. */
const linesOf = (points, isCurved) => [
  points[0],
  ...piecesOf(points, isCurved).flatMap((piece) =>
    isStraight(piece) || piece.length === 2
      ? [piece.at(-1)]
      : Array.from({ length: STEPS }, (_, k) => pointAt(piece, (k + 1) / STEPS)),
  ),
];

const isIn = (p, { x, y, w, h }) => p.x > x + NOISE && p.x < x + w - NOISE && p.y > y + NOISE && p.y < y + h - NOISE;
const isBeside = (p, { x, y, w, h }) => p.x < x - NOISE || p.x > x + w + NOISE || p.y < y - NOISE || p.y > y + h + NOISE;

/** Whether a curve turns sharply where two of its pieces meet. */
function turnsSharply(points) {
  const pieces = piecesOf(points, true);
  return pieces.slice(1).some(([at, next], k) => {
    const before = pieces[k][2];
    const [a, b] = [{ x: at.x - before.x, y: at.y - before.y }, { x: next.x - at.x, y: next.y - at.y }];
    return Math.abs(a.x * b.y - a.y * b.x) > NOISE || a.x * b.x + a.y * b.y < 0;
  });
}

function* faultsOf({ id, source, target, points }, routing, nodes) {
  const isCurved = routing === 'SPLINES';
  if (isCurved && points.length > 2 && points.length % 3 !== 1) {
    yield `${id}: ${points.length} points are no curve`;
    return;
  }
  if (isCurved && points.length > 2 && turnsSharply(points)) {
    yield `${id}: turns sharply`;
  }
  const samples = samplesOf(points, isCurved);
  for (const node of nodes) {
    const [hasSource, hasTarget] = [source.node, target.node].map((end) => isWithin(end, node));
    const isLeaf = node.children.length === 0;
    if ((isLeaf || !(hasSource || hasTarget)) && samples.some((p) => isIn(p, node.box))) {
      yield `${id}: enters ${node.json.id}`;
    }
    // A loop of a node is outside of it.
    if (!isLeaf && hasSource && hasTarget && source.node !== target.node && samples.some((p) => isBeside(p, node.box))) {
      yield `${id}: leaves ${node.json.id}`;
    }
  }
}

const sideOf = (p, q, r) => Math.sign((q.x - p.x) * (r.y - p.y) - (q.y - p.y) * (r.x - p.x));

const isCrossing = ([p, q], [r, s]) =>
  sideOf(p, q, r) * sideOf(p, q, s) < 0 && sideOf(r, s, p) * sideOf(r, s, q) < 0;

/** How often routes cross, each as a line through points along it. */
function crossingsOf(lines) {
  const all = lines.flatMap((points, line) =>
    points.slice(1).map((q, k) => {
      const [left, right] = [Math.min(points[k].x, q.x), Math.max(points[k].x, q.x)];
      return { line, ends: [points[k], q], left, right };
    }),
  );
  all.sort((a, b) => a.left - b.left);
  let count = 0;
  for (const [at, one] of all.entries()) {
    for (let next = at + 1; next < all.length && all[next].left <= one.right; next += 1) {
      count += all[next].line !== one.line && isCrossing(one.ends, all[next].ends) ? 1 : 0;
    }
  }
  return count;
}

/**
 * @param {object} placed a placed document
 * @returns {{ faults: string[], bent: number, crossings: number }} what is wrong with its routes, how many of them aren't
 *   orthogonal, and how often routes cross
 */
function curvesJudged(placed) {
  const scene = new Scene(placed);
  const nodes = [...scene.nodes.values()];
  const routes = scene.edges.flatMap((edge) => scene.routesOf(edge).map((route) => ({ route, edge: edge.json })));
  const single = routes.filter(({ edge }) => list(edge.sections).length === 1);
  const faults = single.flatMap(({ route, edge }) => [...faultsOf(route, edge.routing, nodes)]);
  const lines = single.map(({ route, edge }) => linesOf(route.points, edge.routing === 'SPLINES'));
  return { faults, bent: routes.filter(({ edge }) => edge.routing).length, crossings: crossingsOf(lines) };
}

module.exports = { curvesJudged, linesOf, turnsSharply };
