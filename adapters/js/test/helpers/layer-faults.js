'use strict';
// What is wrong with the layers of a placed document, and with the order in them: children that stand against their layer
// constraint, their partition, or the order that is kept. It shares no code with what draws.

const { Scene, directionOf, isWithin, list, num, optionOf, wordOf } = require('./scene');

/** From where to where outlines reach along the direction of a level, and across it. */
function spanOf({ x0, x1, y0, y1 }, direction) {
  const spans = {
    RIGHT: [x0, x1, y0, y1],
    LEFT: [-x1, -x0, y0, y1],
    DOWN: [y0, y1, x0, x1],
    UP: [-y1, -y0, x0, x1],
  };
  const [from, to, top, low] = spans[direction];
  return { from, to, top, low };
}

/** Labels of a port with what is as far to its other hand, which is kept free too. */
const toBothHands = (labels, { w, h }) =>
  list(labels).flatMap((label) => [label, { ...label, x: w - label.x - label.width, y: h - label.y - label.height }]);

/** Labels at an end of an edge as they would stand to the other hand of it, where as much room is kept free. */
const toOtherHand = (edge, word, end, base) =>
  list(edge.labels)
    .filter((label) => wordOf(label, 'edgeLabels.placement', wordOf(edge, 'edgeLabels.placement', 'CENTER')) === word)
    .map((label) => ({ ...label, x: 2 * (end.x - base.x) - label.x - label.width, y: 2 * (end.y - base.y) - label.y - label.height }));

/** The outlines of nodes with their labels, those of their ports, and those of their edges, which keep whole room in a node's layer. */
function wideOutlines(scene) {
  const wide = new Map([...scene.nodes.values()].map((node) => [node, { ...node.outline }]));
  const widen = (node, labels, { x, y }) => {
    for (const label of list(labels)) {
      for (const outline of [node, ...node.holders].map((it) => wide.get(it))) {
        outline.x0 = Math.min(outline.x0, Math.floor(x + label.x));
        outline.x1 = Math.max(outline.x1, Math.ceil(x + label.x + label.width));
        outline.y0 = Math.min(outline.y0, Math.floor(y + label.y));
        outline.y1 = Math.max(outline.y1, Math.ceil(y + label.y + label.height));
      }
    }
  };
  scene.nodes.forEach((node) => widen(node, node.json.labels, node.box));
  scene.ports.forEach(({ json, node, box }) => widen(node, toBothHands(json.labels, box), box));
  for (const edge of scene.edges) {
    const base = scene.containerOf(edge).box;
    for (const { source, target, points } of scene.routesOf(edge)) {
      for (const [{ node }, word, end] of [[source, 'TAIL', points[0]], [target, 'HEAD', points.at(-1)]]) {
        widen(node, [...list(edge.json.labels), ...toOtherHand(edge.json, word, end, base)], base);
      }
    }
  }
  return wide;
}

/** The child of a level in which a node stands. */
const childWith = (level, node) => level.children.find((child) => isWithin(node, child));

/** The pairs of children of each level that edges join, also from within them, each in the direction of its edge. */
function pairsOf(scene) {
  const pairs = new Map([...scene.nodes.values()].map((node) => [node, []]));
  for (const edge of scene.edges) {
    for (const { source, target } of scene.routesOf(edge)) {
      const level = [source.node, ...source.node.holders].find((it) => isWithin(target.node, it) && it.children.length > 0);
      const ends = level && [source, target].map(({ node }) => childWith(level, node));
      if (ends?.[0] && ends[1] && ends[0] !== ends[1]) {
        pairs.get(level).push(ends);
      }
    }
  }
  return pairs;
}

/** Whether some edge crosses the border of a level, whose parts are laid out together then. */
function isCrossed(scene, level) {
  return scene.edges.some((edge) =>
    scene.routesOf(edge).some(({ source, target }) => {
      const [from, to] = [source.node, target.node];
      return from !== level && to !== level ? isWithin(from, level) !== isWithin(to, level) : from !== to && isWithin(from, level) && isWithin(to, level);
    }),
  );
}

const isPartitioned = ({ json }) => wordOf(json, 'partitioning.activate', false) === 'TRUE';

/** The children of a level in parts: all in one if it isn't split. */
function partsOf(scene, level, pairs) {
  const isSplit = wordOf(level.json, 'separateConnectedComponents', !isPartitioned(level)) === 'TRUE' && !isCrossed(scene, level);
  const parts = new Map(level.children.map((child) => [child, isSplit ? child : level]));
  for (const [one, other] of isSplit ? pairs : []) {
    const [from, to] = [parts.get(one), parts.get(other)];
    parts.forEach((part, child) => part === from && parts.set(child, to));
  }
  return [...new Set(parts.values())].map((part) => level.children.filter((child) => parts.get(child) === part));
}

const constraintOf = ({ json }) => wordOf(json, 'layered.layering.layerConstraint', 'NONE');

/** Children that a constraint wants first or last, and that aren't. */
function* constraintFaults(part, pairs, { spans, wide }) {
  const before = (of) => (one, other) => of.get(one).to < of.get(other).from;
  const behind = (of) => (one, other) => before(of)(other, one);
  // What stands in one layer overlaps, with its labels; separate layers are apart in any case.
  const ends = [['FIRST', before(spans), before(wide)], ['LAST', behind(spans), behind(wide)]];
  for (const [name, isApart, isBeyond] of ends) {
    const separate = `${name}_SEPARATE`;
    // Two of one kind that an edge joins can't stand in one layer.
    const isChained = (child) => pairs.some((pair) => pair.includes(child) && pair.every((it) => constraintOf(it) === name));
    for (const child of part.filter((it) => constraintOf(it) === name && !isChained(it))) {
      const others = part.filter((it) => ![separate, name].includes(constraintOf(it)));
      yield* others.filter((it) => isBeyond(it, child)).map((it) => `${child.json.id}: is ${name}, and ${it.json.id} beyond it`);
    }
    for (const child of part.filter((it) => constraintOf(it) === separate)) {
      const others = part.filter((it) => constraintOf(it) !== separate);
      yield* others.filter((it) => !isApart(child, it)).map((it) => `${child.json.id}: is ${separate}, and ${it.json.id} beside or beyond it`);
    }
  }
}

/** Children of a later partition that don't stand behind those of an earlier one. */
function* partitionFaults(part, spans) {
  const placed = part.filter((it) => constraintOf(it) === 'NONE');
  const numbered = placed.map((child) => [child, Number(optionOf(child.json, 'partitioning.partition', NaN))]);
  for (const [one, early] of numbered) {
    for (const [other, late] of numbered) {
      if (early < late && spans.get(one).to >= spans.get(other).from) {
        yield `${other.json.id}: in partition ${late}, and not behind ${one.json.id} of ${early}`;
      }
    }
  }
}

const CROSSINGS = 'layered.crossingMinimization';

/** Which order a level keeps: that of the document, that of an earlier drawing, or none. */
function orderOf({ json }) {
  const asks = (name, value) => wordOf(json, name, '') === value;
  const isOfDocument = asks(`${CROSSINGS}.forceNodeModelOrder`, 'TRUE') || asks(`${CROSSINGS}.strategy`, 'NONE');
  const earlier = ['interactive', 'interactiveLayout', `${CROSSINGS}.semiInteractive`];
  const isKept = earlier.some((name) => asks(name, 'TRUE')) || asks(`${CROSSINGS}.strategy`, 'INTERACTIVE');
  return wordOf(json, 'layered.order', isOfDocument ? 'DOCUMENT' : isKept ? 'KEPT' : 'SWEPT');
}

const isPlaced = ({ x, y }) => Number.isFinite(x) && Number.isFinite(y);

/** The children of a level that keep their order, in this order; `given` has the children of the document before by their ids. */
function inOrder(level, given) {
  const order = orderOf(level);
  if (order === 'DOCUMENT' || order === 'SWEPT') {
    return order === 'DOCUMENT' ? level.children : [];
  }
  const isFlat = ['RIGHT', 'LEFT'].includes(directionOf(level));
  const positionOf = ({ json }) => optionOf(json, 'layered.position');
  const middleOf = ({ json: { id } }) => {
    const { x, y, width, height } = given.get(id);
    return isFlat ? y + num(height) / 2 : x + num(width) / 2;
  };
  const areAsked = wordOf(level.json, 'layered.order', '') !== '' && level.children.some((it) => positionOf(it) !== undefined);
  const placed = areAsked ? [] : level.children.filter(({ json: { id } }) => isPlaced(given.get(id) ?? {}));
  placed.sort((one, other) => middleOf(one) - middleOf(other));
  const positions = new Map(placed.map((child, rank) => [child, rank]));
  level.children.filter((it) => positionOf(it) !== undefined).forEach((it) => positions.set(it, Number(positionOf(it))));
  return level.children.filter((it) => positions.has(it)).sort((one, other) => positions.get(one) - positions.get(other));
}

const areBeside = (a, b) => a.from < b.to && b.from < a.to;

/** Children of one layer that have left the order that is kept. */
function* orderFaults(part, spans, ordered) {
  const kept = ordered.filter((child) => part.includes(child));
  for (const [at, one] of kept.entries()) {
    for (const other of kept.slice(at + 1)) {
      const [a, b] = [spans.get(one), spans.get(other)];
      if (areBeside(a, b) && a.top > b.top) {
        yield `${other.json.id}: before ${one.json.id}, which comes first in the order that is kept`;
      }
    }
  }
}

/** Children of one layer that an edge joins. */
function* pairFaults(pairs, spans) {
  for (const [one, other] of pairs) {
    if (areBeside(spans.get(one), spans.get(other))) {
      yield `${one.json.id}: in one layer with ${other.json.id}, to which an edge leads`;
    }
  }
}

/** Whether edges between children close no cycle. */
function areAcyclic(pairs) {
  let left = pairs;
  for (let count = Infinity; left.length < count; ) {
    count = left.length;
    const heads = new Set(left.map(([, head]) => head));
    left = left.filter(([tail]) => heads.has(tail));
  }
  return left.length === 0;
}

/** Edges that run against the direction of a level although neither a cycle nor a layer that is asked for makes them. */
function* flowFaults(level, pairs, spans) {
  const isBound = isPartitioned(level) || level.children.some((child) => constraintOf(child) !== 'NONE');
  for (const [tail, head] of !isBound && areAcyclic(pairs) ? pairs : []) {
    if (spans.get(tail).to > spans.get(head).from) {
      yield `${head.json.id}: not behind ${tail.json.id}, from which an edge leads`;
    }
  }
}

/** All nodes of a document by their ids. */
function nodesById(node, found = new Map()) {
  found.set(node.id, node);
  list(node.children).forEach((child) => nodesById(child, found));
  return found;
}

/**
 * @param {object} placed a placed document
 * @param {object} [graph] the document before, with the places of an earlier drawing
 * @returns {{ faults: string[], bound: number }} what is wrong, and how many children ask for a layer or a partition
 */
function layersJudged(placed, graph = {}) {
  const scene = new Scene(placed);
  const given = nodesById(graph);
  const [pairs, outlines] = [pairsOf(scene), wideOutlines(scene)];
  const faults = [];
  let bound = 0;
  for (const level of [...scene.nodes.values()].filter(({ children }) => children.length > 0)) {
    if (/box$/i.test(String(optionOf(level.json, 'algorithm', '')))) {
      continue;
    }
    const direction = directionOf(level);
    const spans = new Map(level.children.map((child) => [child, spanOf(child.outline, direction)]));
    const wide = new Map(level.children.map((child) => [child, spanOf(outlines.get(child), direction)]));
    bound += level.children.filter((it) => constraintOf(it) !== 'NONE' || isPartitioned(level)).length;
    for (const part of partsOf(scene, level, pairs.get(level))) {
      faults.push(...constraintFaults(part, pairs.get(level), { spans, wide }));
      faults.push(...(isPartitioned(level) ? partitionFaults(part, spans) : []));
      faults.push(...orderFaults(part, spans, inOrder(level, given)));
    }
    faults.push(...pairFaults(pairs.get(level), spans), ...flowFaults(level, pairs.get(level), spans));
  }
  return { faults, bound };
}

module.exports = { layersJudged };
