'use strict';
// What is wrong with a placed document whose edges may cross borders, judged in the coordinates of the whole drawing.

const { SIDES, Scene, enters, isUpright, isWithin, list, num, optionOf, piecesOf, wordOf } = require('./scene');

const OUTWARD = { WEST: [-1, 0], EAST: [1, 0], NORTH: [0, -1], SOUTH: [0, 1] };

/** How far a port lies within a side of its node. */
function depthOf({ node: { box }, box: { x, y, w, h } }, side) {
  return { WEST: x - box.x, EAST: box.x + box.w - x - w, NORTH: y - box.y, SOUTH: box.y + box.h - y - h }[side];
}

/** Whether a port lies a little within a side of its node: that which it asks for, or one of those within all of which it lies. */
function isInset(port, side) {
  const depth = depthOf(port, side);
  const isWithin = wordOf(port.json, 'port.side', '') === side || SIDES.every((it) => depthOf(port, it) > 0);
  return isWithin && depth > 0 && depth * 4 < (isUpright(side) ? port.node.box.w : port.node.box.h);
}

/** The rule for the ports of a node. */
function ruleOf({ json }) {
  const rule = wordOf(json, 'portConstraints', 'FREE');
  return rule === 'UNDEFINED' ? 'FREE' : rule;
}

/** The places of a port at which a line may end: outside, or on the border if it comes from within. */
function anchorsOf(port, isFromWithin) {
  const { json, node, box: { x, y, w, h } } = port;
  const [half, middle] = [Math.floor(h / 2), Math.floor(w / 2)];
  const { box } = node;
  const asked = wordOf(json, 'port.side', '');
  const rule = ruleOf(node);
  const mayBeAt = (side) => rule === 'FREE' || !SIDES.includes(asked) || asked === side;
  // Pinned ports of leaves may reach into their node.
  const isFlush = node.children.length > 0 || rule !== 'FIXED_POS';
  const [right, low] = [box.x + box.w, box.y + box.h];
  const sides = [
    ['WEST', isFlush ? x + w === box.x : x <= box.x, { x, y: y + half }, { x: x + w, y: y + half }],
    ['EAST', isFlush ? x === right : x + w >= right, { x: x + w, y: y + half }, { x, y: y + half }],
    ['NORTH', isFlush ? y + h === box.y : y <= box.y, { x: x + middle, y }, { x: x + middle, y: y + h }],
    ['SOUTH', isFlush ? y === low : y + h >= low, { x: x + middle, y: y + h }, { x: x + middle, y }],
  ];
  return sides
    .filter(([side, isThere]) => (isThere || (!isFlush && isInset(port, side))) && mayBeAt(side))
    .map(([side, , outer, inner]) => ({ side, ...(isFromWithin ? inner : outer) }));
}

/** The sides of a box on which a point lies. */
function sidesAt({ x, y, w, h }, p) {
  const [isBeside, isBelow] = [p.y >= y && p.y <= y + h, p.x >= x && p.x <= x + w];
  const isAt = {
    WEST: isBeside && p.x === x,
    EAST: isBeside && p.x === x + w,
    NORTH: isBelow && p.y === y,
    SOUTH: isBelow && p.y === y + h,
  };
  return SIDES.filter((side) => isAt[side]);
}

/** Judges an end of a route, and keeps with the route at which docks it ends. */
function* endFaults(route, end) {
  const { node, port } = route[end];
  const other = route[end === 'source' ? 'target' : 'source'].node;
  const isFromWithin = other !== node && isWithin(other, node);
  const [p, q] = end === 'source' ? route.points : route.points.slice().reverse();
  const isAt = ({ x, y }) => x === p.x && y === p.y;
  const sides = port ? anchorsOf(port, isFromWithin).filter(isAt).map(({ side }) => side) : sidesAt(node.box, p);
  if (sides.length === 0) {
    yield `${route.id}: its ${end} is not at its anchor`;
    return;
  }
  // A dock is a side of a node and a place along it: a port and an end at the node may share one.
  route.docks.push(...sides.map((side) => `${node.json.id} ${side} ${isUpright(side) ? p.y : p.x}`));
  route[end].sides = sides;
  const sign = isFromWithin ? -1 : 1;
  const way = [q.x - p.x, q.y - p.y];
  const isStraight = way[0] === 0 || way[1] === 0;
  // A slanted route leaves in any direction outward.
  const isOutward = (side) =>
    (isStraight || route.routing !== undefined) && (OUTWARD[side][0] * way[0] + OUTWARD[side][1] * way[1]) * sign > 0;
  if ((route.points.length > 2 || route.source.node !== route.target.node) && !sides.some(isOutward)) {
    yield `${route.id}: its ${end} does not leave its dock outward`;
  }
}

/** How often a route crosses the border of a box, and whether it runs along it. */
function passesOf(points, box) {
  const { x, y, w, h } = box;
  const stateOf = (p) => {
    const isIn = p.x > x && p.x < x + w && p.y > y && p.y < y + h;
    const isOut = p.x < x || p.x > x + w || p.y < y || p.y > y + h;
    return isIn ? 'in' : isOut ? 'out' : undefined;
  };
  let [count, isAlong, last] = [0, false, undefined];
  points.forEach((p, at) => {
    const state = stateOf(p);
    isAlong = isAlong || (state === undefined && at > 0 && at + 1 < points.length);
    count += state && last && state !== last ? 1 : 0;
    count += state === 'out' && last === 'out' && enters(piecesOf([points[at - 1], p])[0], box) ? 2 : 0;
    last = state ?? last;
  });
  return { count, isAlong };
}

/** What is wrong with a route at one node. */
function wayFault({ id, source, target, points }, node) {
  const [hasSource, hasTarget] = [isWithin(source.node, node), isWithin(target.node, node)];
  const pieces = piecesOf(points);
  const { box, outline, json } = node;
  if (!hasSource && !hasTarget) {
    const { x0, x1, y0, y1 } = outline;
    // Without padding, what stands within an end reaches as far as its border.
    const isInEnd = isWithin(node, source.node) || isWithin(node, target.node);
    const isAt = (s) => s.x0 <= x1 && s.x1 >= x0 && s.y0 <= y1 && s.y1 >= y0;
    const isMet = pieces.some((s) => (isInEnd ? enters(s, { x: x0, y: y0, w: x1 - x0, h: y1 - y0 }) : isAt(s)));
    return isMet && `${id}: meets ${json.id}`;
  }
  const isEnd = node === source.node || node === target.node;
  if (isEnd && (node.children.length === 0 || !(hasSource && hasTarget) || source.node === target.node)) {
    return pieces.some((it) => enters(it, box)) && `${id}: enters its own ${json.id}`;
  }
  if (hasSource && hasTarget) {
    const leaves = (s) => s.x0 < box.x || s.x1 > box.x + box.w || s.y0 < box.y || s.y1 > box.y + box.h;
    return pieces.some(leaves) && `${id}: leaves ${json.id}`;
  }
  const { count, isAlong } = passesOf(points, box);
  return (count !== 1 || isAlong) && `${id}: passes the border of ${json.id} ${count} times${isAlong ? ', and runs along it' : ''}`;
}

/** What is wrong with the form of a route. */
function* formFaults({ id, source, target, points }) {
  const isPoint = points.length === 2 && source.node === target.node;
  for (let at = 1; at < points.length; at += 1) {
    const [o, p, q] = [points[at - 2], points[at - 1], points[at]];
    if (!isPoint && (p.x !== q.x) === (p.y !== q.y)) {
      yield `${id}: a piece is ${p.x === q.x ? 'empty' : 'slanted'}`;
    }
    if (o && ((o.x === p.x && p.x === q.x) || (o.y === p.y && p.y === q.y))) {
      yield `${id}: it does not turn at a bend`;
    }
  }
}

const middleOf = (side, { x, y, w, h }) => (isUpright(side) ? y + Math.floor(h / 2) : x + Math.floor(w / 2));

// Sums of fractions are seldom exact.
const NOISE = 1e-6;

/**
 * Whether a place along an axis is the one that was given, with the size there and the length of the node: the nearest
 * whole one, and at the far border if it was there. What stands at the far side of a node moves along when that grows.
 */
function isSamePlace(now, given) {
  const growth = now.room - Math.ceil(given.room);
  const isWhole = [given.at, given.size, given.room].every(Number.isInteger);
  const isNear = (at) => Math.abs(at - given.at) < (isWhole ? NOISE : 2);
  const [isAtBorder, wasAtBorder] = [now, given].map(({ at, size, room }) => room > 0 && Math.abs(at + size - room) < NOISE);
  return Number.isInteger(now.at) && ((isNear(now.at - growth) && (isAtBorder || !wasAtBorder)) || (isNear(now.at) && growth !== 0));
}

/** Whether a port stands where it was given. */
function isKept({ node, json, box }, side, given) {
  const old = { ...given.ports.get(json.id).json };
  const { width, height } = given.nodes.get(node.json.id).json;
  const along = ({ at, size, room }) => ({ at: num(at), size: num(size), room: num(room) });
  const across = [{ at: box.x - node.box.x, size: box.w, room: node.box.w }, along({ at: old.x, size: old.width, room: width })];
  const down = [{ at: box.y - node.box.y, size: box.h, room: node.box.h }, along({ at: old.y, size: old.height, room: height })];
  if (node.children.length === 0) {
    return isSamePlace(...across) && isSamePlace(...down);
  }
  const [now, before] = isUpright(side) ? down : across;
  return !SIDES.includes(wordOf(json, 'port.side', '')) || now.at === Math.round(before.at);
}

/** The ports of a node that are out of their fixed order at a side. */
function outOfOrder(node, side, given) {
  // An order runs clockwise.
  const sign = side === 'NORTH' || side === 'EAST' ? 1 : -1;
  const here = node.ports.filter(({ json }) => wordOf(json, 'port.side', '') === side);
  const keyOf = ({ json }) => {
    const old = given.ports.get(json.id).json;
    const box = { x: num(old.x), y: num(old.y), w: num(json.width), h: num(json.height) };
    return [Number(optionOf(json, 'port.index', 0)), sign * middleOf(side, box)];
  };
  const keys = new Map(here.map((port) => [port, keyOf(port)]));
  const sorted = here.slice().sort((a, b) => keys.get(a)[0] - keys.get(b)[0] || keys.get(a)[1] - keys.get(b)[1]);
  return sorted.filter((port, at) => at > 0 && sign * (middleOf(side, port.box) - middleOf(side, sorted[at - 1].box)) < 0);
}

/** Ports stand at the sides that are asked for, in the order or at the places that are. */
function* portFaults(node, given) {
  const rule = ruleOf(node);
  for (const port of node.ports) {
    const [anchor] = anchorsOf(port, false);
    if (!anchor) {
      yield `${port.json.id}: at no side that it may have`;
    } else if (rule === 'FIXED_POS' && !isKept(port, anchor.side, given)) {
      yield `${port.json.id}: not at its given place`;
    }
  }
  for (const side of rule === 'FIXED_ORDER' ? SIDES : []) {
    yield* outOfOrder(node, side, given).map(({ json }) => `${json.id}: out of order`);
  }
}

function paddingOf(json) {
  const given = optionOf(json, 'padding');
  const padding = { top: 0, left: 0, bottom: 0, right: 0 };
  for (const side of Object.keys(padding)) {
    const [, length] = new RegExp(`${side}\\s*=\\s*(\\d+)`).exec(String(given)) ?? [];
    padding[side] = given === undefined ? 12 : Number(length ?? 0);
  }
  return padding;
}

/** Whether an edge leads to a child of a level, or into it, from elsewhere. */
function isReached(scene, { children }) {
  const childWith = (node) => children.find((child) => isWithin(node, child));
  return scene.edges.some((edge) => scene.pairsOf(edge).some(({ source, target }) => childWith(source) !== childWith(target)));
}

/** How far the children of a level stand apart at least. A level of boxes that edges reach is laid out in layers. */
function roomIn(scene, level) {
  const { json } = level;
  const number = (name) => Number(optionOf(json, name, 20));
  const between = Math.max(1, number('spacing.nodeNode'));
  if (/box$/i.test(String(optionOf(json, 'algorithm', ''))) && !isReached(scene, level)) {
    return between;
  }
  const isSplit = wordOf(json, 'separateConnectedComponents', true) === 'TRUE';
  const parts = isSplit ? number('spacing.componentComponent') : Infinity;
  return Math.min(between, Math.max(1, number('layered.spacing.nodeNodeBetweenLayers')), parts);
}

/** Children stand within their node, apart from one another. */
function* boxFaults(scene, level) {
  const { json, children, box } = level;
  const pad = paddingOf(json);
  const room = roomIn(scene, level);
  const [left, top, right, low] = [box.x + pad.left, box.y + pad.top, box.x + box.w - pad.right, box.y + box.h - pad.bottom];
  for (const [at, { outline: a, json: one }] of children.entries()) {
    if (a.x0 < left || a.y0 < top || a.x1 > right || a.y1 > low) {
      yield `${one.id}: not inside ${json.id}`;
    }
    for (const { outline: b, json: other } of children.slice(at + 1)) {
      const apart = Math.max(b.x0 - a.x1, a.x0 - b.x1, b.y0 - a.y1, a.y0 - b.y1);
      if (apart < room) {
        yield `${one.id} and ${other.id}: ${apart} apart, not ${room}`;
      }
    }
  }
}

/** Whether two pieces of routes lie on one another for a stretch. */
function isShared(a, b) {
  const dx = Math.min(a.x1, b.x1) - Math.max(a.x0, b.x0);
  const dy = Math.min(a.y1, b.y1) - Math.max(a.y0, b.y0);
  const areFlat = a.y0 === a.y1 && b.y0 === b.y1;
  const areUpright = a.x0 === a.x1 && b.x0 === b.x1;
  return (areFlat && dy === 0 && dx > 0) || (areUpright && dx === 0 && dy > 0);
}

/** Whether two pieces of routes cross within both. */
function isCrossing(a, b) {
  const [flat, upright] = a.y0 === a.y1 ? [a, b] : [b, a];
  const isIn = (low, at, high) => low < at && at < high;
  return isIn(flat.x0, upright.x0, flat.x1) && isIn(upright.y0, flat.y0, upright.y1);
}

/** Counts crossings, and reports routes that share a piece without a common dock. */
function judgePairs(routes) {
  const all = routes.flatMap((route) => piecesOf(route.points).map((piece) => ({ ...piece, route })));
  const pieces = all.filter(({ x0, x1, y0, y1 }) => x0 !== x1 || y0 !== y1).sort((a, b) => a.x0 - b.x0);
  let crossings = 0;
  const shared = new Set();
  for (const [at, a] of pieces.entries()) {
    for (let next = at + 1; next < pieces.length && pieces[next].x0 <= a.x1; next += 1) {
      const b = pieces[next];
      if (a.route === b.route) {
        continue;
      }
      crossings += isCrossing(a, b) ? 1 : 0;
      if (isShared(a, b) && !a.route.docks.some((dock) => b.route.docks.includes(dock))) {
        shared.add(`${a.route.id} and ${b.route.id}: share a piece`);
      }
    }
  }
  return { crossings, shared };
}

const isLabel = ({ x, width }) => Number.isFinite(x) && width > 0;

/** The placed labels of nodes, ports and edges, with their places in the whole drawing. */
function labelsOf(scene) {
  const at = (labels, base, owner) =>
    list(labels)
      .filter(isLabel)
      .map(({ x, y, width, height, text }) => ({ x: base.x + x, y: base.y + y, w: width, h: height, owner, text }));
  const ofNodes = [...scene.nodes.values()].flatMap((node) => at(node.json.labels, node.box, node));
  const ofPorts = [...scene.ports.values()].flatMap(({ json, box }) => at(json.labels, box));
  return [...ofNodes, ...ofPorts, ...scene.edges.flatMap((edge) => at(edge.json.labels, scene.containerOf(edge).box, edge.json.id))];
}

/** Labels meet no line, leaf or other label. */
function* labelFaults(scene, routes) {
  const labels = labelsOf(scene);
  const rectOf = ({ x, y, w, h }) => ({ x0: x, x1: x + w, y0: y, y1: y + h });
  for (const [at, label] of labels.entries()) {
    const met = routes.filter(({ id, points }) => id !== label.owner && piecesOf(points).some((it) => enters(it, label)));
    yield* met.map(({ id }) => `the label ${label.text}: meets the edge ${id}`);
    const others = labels.slice(at + 1).filter((other) => enters(rectOf(other), label));
    yield* others.map(({ text }) => `the label ${label.text}: meets the label ${text}`);
    const leaves = [...scene.nodes.values()].filter((node) => node !== label.owner && node.children.length === 0);
    yield* leaves.filter(({ box }) => enters(rectOf(label), box)).map(({ json }) => `the label ${label.text}: meets ${json.id}`);
  }
}

const lengthOf = (points) => piecesOf(points).reduce((sum, { x0, x1, y0, y1 }) => sum + x1 - x0 + y1 - y0, 0);

/**
 * @param {object} placed a placed document
 * @param {object} graph the document before
 * @returns {{ faults: string[], routes: number, across: number, crossings: number, bends: number, length: number }} what is
 *   wrong with the drawing; its routes, and those of them that cross borders; and what is counted in it
 */
function judged(placed, graph) {
  const [scene, given] = [new Scene(placed), new Scene(graph)];
  const nodes = [...scene.nodes.values()];
  const faults = nodes.flatMap((node) => [...(node.children.length > 0 ? boxFaults(scene, node) : []), ...portFaults(node, given)]);
  const undrawn = scene.edges.filter(({ json }) => list(json.sections).length === 0);
  faults.push(...undrawn.map(({ json }) => `${json.id}: not drawn`));
  const routes = scene.edges.flatMap((edge) => scene.routesOf(edge));
  for (const route of routes) {
    route.docks = [];
    faults.push(...formFaults(route), ...endFaults(route, 'source'), ...endFaults(route, 'target'));
    faults.push(...nodes.map((node) => wayFault(route, node)).filter(Boolean));
  }
  const { crossings, shared } = judgePairs(routes);
  faults.push(...shared, ...labelFaults(scene, routes));
  const sum = (valueOf) => routes.reduce((total, { points }) => total + valueOf(points), 0);
  const across = routes.filter(({ source, target }) => source.node.parent !== target.node.parent).length;
  return { faults, routes: routes.length, across, crossings, bends: sum((points) => points.length - 2), length: sum(lengthOf) };
}

module.exports = {
  boxFaults,
  depthOf,
  endFaults,
  formFaults,
  judgePairs,
  judged,
  paddingOf,
  portFaults,
  ruleOf,
  wayFault,
};
