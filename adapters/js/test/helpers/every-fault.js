'use strict';
// What is wrong with any placed document: its elements and sizes, boxes, ports, routes of all kinds, labels, layers, orders
// and junction points. It shares no code with what draws.

const { linesOf, turnsSharply } = require('./curve-faults');
const { boxFaults, depthOf, endFaults, formFaults, judgePairs, paddingOf, portFaults, ruleOf, wayFault } = require('./drawing-faults');
const { junctionFaults } = require('./junction-faults');
const { keptFaults } = require('./kept-faults');
const { labelFaults } = require('./label-faults');
const { layersJudged } = require('./layer-faults');
const { isInside, isOutside, reachesInto, rectOfBox } = require('./lines');
const { relative } = require('./relative');
const { Scene, chainsOf, isWithin, list, routingOf, wordOf } = require('./scene');

const ENDS = ['source', 'target'];

const isSame = (p, q) => p.x === q.x && p.y === q.y;

/** The lines of a route, with its curves as short lines. */
function segmentsOf({ sections, routing }) {
  const points = sections.flatMap((section) => linesOf(section, routing === 'SPLINES'));
  return points.slice(1).map((q, k) => [points[k], q]).filter(([p, q]) => !isSame(p, q));
}

/** The box of a node without the strip in which a route goes on to a port within the node, which its last corner may cut. */
function openRect({ source, target }, node) {
  const rect = rectOfBox(node.box);
  for (const { port, node: own, sides = [] } of [source, target]) {
    const side = port && own === node && node.children.length === 0 && sides.find((it) => depthOf(port, it) > 0);
    if (side) {
      const [name, sign] = { WEST: ['x0', 1], EAST: ['x1', -1], NORTH: ['y0', 1], SOUTH: ['y1', -1] }[side];
      rect[name] += sign * depthOf(port, side);
    }
  }
  return rect;
}

/** What is wrong with a slanted or curved route at one node. */
function bentWayFault(route, node) {
  const { id, source, target, segments } = route;
  const { children, json } = node;
  const rect = openRect(route, node);
  const [hasSource, hasTarget] = [source, target].map((end) => isWithin(end.node, node));
  const isEnd = node === source.node || node === target.node;
  const isOut = isEnd && (children.length === 0 || !(hasSource && hasTarget) || source.node === target.node);
  if (isOut || (!hasSource && !hasTarget)) {
    return segments.some((it) => reachesInto(it, rect)) && `${id}: enters ${isOut ? 'its own ' : ''}${json.id}, slanted or curved`;
  }
  const points = [segments[0][0], ...segments.map(([, q]) => q)];
  if (hasSource && hasTarget) {
    return points.some((p) => isOutside(p, rect)) && `${id}: leaves ${json.id}, slanted or curved`;
  }
  const states = points.map((p) => (isInside(p, rect) ? 'in' : isOutside(p, rect) ? 'out' : undefined)).filter(Boolean);
  const count = states.filter((state, at) => at > 0 && state !== states[at - 1]).length;
  return count !== 1 && `${id}: passes the border of ${json.id} ${count} times, slanted or curved`;
}

/** What is wrong with the sections of a slanted or curved route. */
function* bentFormFaults({ id, sections, routing }) {
  for (const points of routing === 'SPLINES' ? sections.filter(({ length }) => length > 2) : []) {
    if (points.length % 3 !== 1) {
      yield `${id}: ${points.length} points are no curve`;
    } else if (turnsSharply(points)) {
      yield `${id}: turns sharply`;
    }
  }
}

/** A route that ends at ports within their nodes, as far as the borders of these. */
function asFarAsBorders(route) {
  const [first, ...rest] = route.points;
  const last = rest.pop();
  const ends = { source: first, target: last };
  for (const end of ENDS) {
    const { port, node, sides = [] } = route[end];
    const side = port && node.children.length === 0 && sides.find((it) => depthOf(port, it) > 0);
    if (side) {
      const { x, y, w, h } = node.box;
      const border = { WEST: { x }, EAST: { x: x + w }, NORTH: { y }, SOUTH: { y: y + h } }[side];
      ends[end] = { ...ends[end], ...border };
    }
  }
  const points = [ends.source, ...rest, ends.target];
  const isMoved = !isSame(ends.source, first) || !isSame(ends.target, last);
  // The sections of one of several ends stay; only their outermost points count.
  const sections = isMoved ? route.sections.map((section, at, all) => section.map((p, k) =>
    at === 0 && k === 0 ? ends.source : at + 1 === all.length && k + 1 === section.length ? ends.target : p)) : route.sections;
  return { ...route, points, sections };
}

/** The points of a route within one level stay within the padding of its node. */
function paddingFault({ id, source, target, segments }) {
  const level = source.node.parent;
  if (!level || level !== target.node.parent) {
    return undefined;
  }
  const { top, left, bottom, right } = paddingOf(level.json);
  const { x, y, w, h } = level.box;
  const room = { x0: x + left, y0: y + top, x1: x + w - right, y1: y + h - bottom };
  return segments.flat().some((p) => isOutside(p, room)) && `${id}: reaches into the padding of ${level.json.id}`;
}

/** The routes of an edge, and what is wrong with their number, ends and style. */
function* edgeFaults(scene, edge) {
  const { json } = edge;
  const sections = list(json.sections);
  if (sections.length === 0) {
    yield `${json.id}: not drawn`;
    return;
  }
  const [sources, targets] = ENDS.map((end) => scene.idsAt(json, end));
  const pairs = sources.flatMap((source) => targets.map((target) => `${source} to ${target}`)).sort();
  const told = chainsOf(sections).map((chain) => `${chain[0].incomingShape} to ${chain.at(-1).outgoingShape}`).sort();
  if (pairs.join() !== told.join()) {
    yield `${json.id}: its sections lead from ${told.join(', from ')}`;
  }
  const container = scene.containerOf(edge).json.id;
  if (json.container !== container) {
    yield `${json.id}: its container is ${json.container}, and not ${container}`;
  }
  const style = routingOf(scene.containerOf(edge));
  if ((json.routing ?? 'ORTHOGONAL') !== style) {
    yield `${json.id}: is ${json.routing ?? 'ORTHOGONAL'}, and not ${style}`;
  }
  yield* sectionFaults(json.id, sections);
}

/** Sections that follow one another meet. */
function* sectionFaults(id, sections) {
  const byId = new Map(sections.map((it) => [it.id, it]));
  for (const section of sections) {
    for (const next of list(section.outgoingSections)) {
      if (!list(byId.get(next)?.incomingSections).includes(section.id)) {
        yield `${id}: a section that follows another doesn't tell it`;
      } else if (!isSame(section.endPoint, byId.get(next).startPoint)) {
        yield `${id}: sections don't meet`;
      }
    }
  }
}

/** What is wrong with one route. */
function* routeFaults(route, nodes) {
  yield* ENDS.flatMap((end) => [...endFaults(route, end)]);
  if (route.routing === undefined) {
    yield* formFaults(route);
    const cut = asFarAsBorders(route);
    yield* nodes.map((node) => wayFault(cut, node)).filter(Boolean);
  } else {
    yield* bentFormFaults(route);
    const cut = asFarAsBorders(route);
    const bent = { ...cut, segments: segmentsOf(cut) };
    yield* bent.segments.length > 0 ? nodes.map((node) => bentWayFault(bent, node)).filter(Boolean) : [];
  }
}

/** Whether an edge may share its dock at a node with others, since its level merges edges. */
function isMerged(scene, edge, node) {
  const pairs = scene.pairsOf(edge);
  const [{ source, target }] = pairs;
  const isPlain = pairs.length === 1 && source !== target && source.parent === target.parent;
  return isPlain && wordOf(node.parent.json, 'layered.mergeEdges', '') === 'TRUE';
}

/** Edges of several ends begin at one dock, and merged edges at one for those that leave a node and one for those that enter it. */
function* dockFaults(scene, routes) {
  const docks = new Map();
  for (const { edge, route } of routes) {
    for (const end of ENDS) {
      const { node, port } = route[end];
      const isPinned = ruleOf(node) === 'FIXED_POS' && node.children.length === 0;
      const { x, y } = end === 'source' ? route.points[0] : route.points.at(-1);
      const isStem = scene.idsAt(edge.json, end).length === 1 && scene.pairsOf(edge).length > 1;
      const [key, most] = isStem ? [`${edge.json.id}: has several docks at ${node.json.id}`, 1] : [`${node.json.id}: has several docks for merged edges`, 2];
      if ((isStem && (port || !isPinned)) || (!port && !isPinned && isMerged(scene, edge, node))) {
        // Lines from within a node begin at the inner end of its port.
        const place = port ? port.json.id : `${x} ${y}`;
        docks.set(key, { most, places: new Set([...(docks.get(key)?.places ?? []), place]) });
      }
    }
  }
  yield* [...docks].filter(([, { places, most }]) => places.size > most).map(([fault]) => fault);
}

/**
 * What is wrong with a placed document.
 * @param {object} graph the document before
 * @param {object} placed the document with its drawing
 * @returns {string[]}
 */
function faultsOfDrawing(graph, placed) {
  const kept = [...keptFaults(graph, placed)];
  if (kept.length > 0) {
    return kept;
  }
  const [scene, given] = [new Scene(relative(placed)), new Scene(graph)];
  const nodes = [...scene.nodes.values()];
  const faults = nodes.flatMap((node) => [...(node.children.length > 0 ? boxFaults(scene, node) : []), ...portFaults(node, given)]);
  faults.push(...scene.edges.flatMap((edge) => [...edgeFaults(scene, edge)]));
  const routes = scene.edges.flatMap((edge) => scene.routesOf(edge).map((route) => ({ edge, route })));
  for (const { route } of routes) {
    Object.assign(route, { docks: [], segments: segmentsOf(route) });
    faults.push(...routeFaults(route, nodes));
  }
  const all = routes.map(({ route }) => route);
  faults.push(...all.map(paddingFault).filter(Boolean), ...dockFaults(scene, routes));
  faults.push(...judgePairs(all.filter(({ routing }) => routing === undefined)).shared);
  faults.push(...labelFaults(scene, all), ...layersJudged(scene.root.json, graph).faults, ...junctionFaults(scene, routes));
  return faults;
}

module.exports = { faultsOfDrawing };
