'use strict';
// What is wrong with the junction points of a placed document: where orthogonal routes of one dock part or join, and slanted or
// curved routes of one edge.

const { list } = require('./scene');

const keyOf = ({ x, y }) => `${x} ${y}`;

const isBetween = (low, at, high) => Math.min(low, high) < at && at < Math.max(low, high);

const wayTo = (from, to) => `${Math.sign(to.x - from.x)} ${Math.sign(to.y - from.y)}`;

/** The two ways that a route takes at a point, each time that it passes it. */
function passesOf(points, at) {
  const isWithin = (p, q) => (p.x === q.x && at.x === p.x && isBetween(p.y, at.y, q.y)) || (p.y === q.y && at.y === p.y && isBetween(p.x, at.x, q.x));
  const bends = points.slice(1, -1).map((p, k) => [p, points[k], points[k + 2]]).filter(([p]) => keyOf(p) === keyOf(at));
  const lines = points.slice(1).map((q, k) => [points[k], q]).filter(([p, q]) => isWithin(p, q));
  return [...bends.map(([p, before, behind]) => [wayTo(p, before), wayTo(p, behind)]), ...lines.map(([p, q]) => [wayTo(at, p), wayTo(at, q)])];
}

/** The points at which two routes part or join: both pass them, and have one way there in common. */
function partingsOf(one, other) {
  const bends = [one, other].flatMap((points) => points.slice(1, -1));
  return bends.filter((at) =>
    passesOf(one, at).some((a) => passesOf(other, at).some((b) => a.filter((way) => b.includes(way)).length === 1)),
  );
}

/** The orthogonal routes at each dock. */
function routesByDock(routes) {
  const docks = new Map();
  for (const { edge, route } of routes.filter((it) => it.route.routing === undefined)) {
    for (const [{ node }, point] of [[route.source, route.points[0]], [route.target, route.points.at(-1)]]) {
      const key = `${node.json.id} ${keyOf(point)}`;
      docks.set(key, [...(docks.get(key) ?? []), { edge, points: route.points }]);
    }
  }
  return [...docks.values()];
}

/** The points among these, each once, with the edges that may list them. */
const foundAt = (points, edges) => [...new Set(points.map(keyOf))].map((key) => ({ key, edges: new Set(edges) }));

/** Where orthogonal routes of one dock part or join. */
function orthogonalPartings(routes) {
  return routesByDock(routes).flatMap((here) => {
    const points = here.flatMap((one, at) => here.slice(at + 1).flatMap((other) => partingsOf(one.points, other.points)));
    return foundAt(points, here.map(({ edge }) => edge));
  });
}

/** The last point of what two lists of sections begin with in common, if they begin with anything in common. */
function lastInCommon(one, other) {
  const same = (k) => k < one.length && k < other.length && one[k].map(keyOf).join() === other[k].map(keyOf).join();
  const count = one.findIndex((_, k) => !same(k));
  return count > 0 ? [one[count - 1].at(-1)] : [];
}

const backwards = (sections) => sections.map((points) => [...points].reverse()).reverse();

/** Where slanted or curved routes of one edge part or join, other than at its ends. */
function bentPartings(routes) {
  const byEdge = new Map();
  for (const { edge, route } of routes.filter((it) => it.route.routing !== undefined)) {
    byEdge.set(edge, [...(byEdge.get(edge) ?? []), route]);
  }
  return [...byEdge].flatMap(([edge, here]) => {
    const ends = new Set(here.flatMap(({ points }) => [points[0], points.at(-1)]).map(keyOf));
    const points = here.flatMap(({ sections: one }, at) =>
      here.slice(at + 1).flatMap(({ sections: other }) => [...lastInCommon(one, other), ...lastInCommon(backwards(one), backwards(other))]),
    );
    return foundAt(points.filter((point) => !ends.has(keyOf(point))), [edge]);
  });
}

/**
 * @param {import('./scene').Scene} scene
 * @param {{ edge: object, route: object }[]} routes
 * @returns {string[]}
 */
function junctionFaults(scene, routes) {
  const faults = [];
  const found = [...orthogonalPartings(routes), ...bentPartings(routes)];
  const told = new Map(found.map(({ key }) => [key, []]));
  for (const edge of scene.edges) {
    const { x, y } = scene.containerOf(edge).box;
    const own = routes.filter((it) => it.edge === edge).map(({ route }) => route);
    for (const point of list(edge.json.junctionPoints).map((it) => ({ x: it.x + x, y: it.y + y }))) {
      const isOrthogonal = own.some(({ routing }) => routing === undefined);
      if (isOrthogonal && !own.some(({ points }) => passesOf(points, point).length > 0)) {
        faults.push(`${edge.json.id}: a junction point is not on its route`);
      } else if (!found.some(({ key, edges }) => key === keyOf(point) && edges.has(edge))) {
        faults.push(`${edge.json.id}: at a junction point nothing parts`);
      } else {
        told.get(keyOf(point)).push(edge);
      }
    }
  }
  for (const { key, edges } of found) {
    if (told.get(key).length !== 1) {
      faults.push(`${[...edges][0].json.id}: its route parts from another at a point that is listed ${told.get(key).length} times`);
    }
  }
  return faults;
}

module.exports = { junctionFaults };
