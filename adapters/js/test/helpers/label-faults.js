'use strict';
// What labels of a placed document meet that they should not, apart from the cases that docs/EDITORS.md lists. It shares no
// code with what draws.

const { isIn, isOutside, overlap, reachesInto, rectOfBox } = require('./lines');
const { isWithin, list, num, wordOf } = require('./scene');

const ENDS = ['source', 'target'];

// How much nearer than labels are large things at a node may stand without being too close.
const SPACE = 14;

// How far the round corner of a curve may reach into a label that keeps clear of its lines.
const GRAZED = 1;

const within = ({ x0, y0, x1, y1 }, by) => ({ x0: x0 + by, y0: y0 + by, x1: x1 - by, y1: y1 - by });

const wordsOf = (text) => new Set(String(text).match(/\w+/g) ?? []);

/** What a label asks for by an option, or else the element that has it. */
const askedBy = (label, owner, name, byDefault) => wordOf(label, name, wordOf(owner, name, byDefault));

const rectOf = ({ x, y, width, height }, base) => ({ x0: base.x + num(x), y0: base.y + num(y), x1: base.x + num(x) + num(width), y1: base.y + num(y) + num(height) });
/** The labels of a node, with the nodes within which each stands. */
function labelsOfNode(node) {
  return list(node.json.labels).map((label) => {
    const names = wordsOf(askedBy(label, node.json, 'nodeLabels.placement', ''));
    const [column, row] = [['H_LEFT', 'H_CENTER', 'H_RIGHT'], ['V_TOP', 'V_CENTER', 'V_BOTTOM']].map((all) => all.find((it) => names.has(it)));
    const isMiddle = column === 'H_CENTER' && row === 'V_CENTER';
    const isInside = names.has('INSIDE');
    return {
      ...{ label, node, name: `the ${isInside ? 'INSIDE' : 'OUTSIDE'} label of the node ${node.json.id}`, rect: rectOf(label, node.box) },
      ...{ isPlaced: column && row && (isInside || (names.has('OUTSIDE') && !isMiddle)), isInside, isMiddle },
      within: isInside ? [node, ...node.holders] : [...node.holders],
    };
  });
}

/** The labels of a port. */
function labelsOfPort({ json, node, box }) {
  const names = wordsOf(wordOf(node.json, 'portLabels.placement', 'OUTSIDE'));
  const isInside = names.has('INSIDE');
  return list(json.labels).map((label) => ({
    ...{ label, node, isOfPort: true, name: `the ${isInside ? 'INSIDE' : 'OUTSIDE'} label of the port ${json.id}`, rect: rectOf(label, box) },
    ...{ isPlaced: isInside || names.has('OUTSIDE'), isInside },
    within: isInside ? [node, ...node.holders] : [...node.holders],
  }));
}

/** The labels of an edge. Where it crosses borders, they may stand within these. */
function labelsOfEdge(scene, edge) {
  const { json } = edge;
  const level = scene.containerOf(edge);
  const ends = scene.pairsOf(edge).flatMap(({ source, target }) => [source, target]);
  const crossed = new Set(ends.flatMap((end) => [...end.holders].filter((it) => it.holders.has(level))));
  const isOfLoop = ends.every((end) => end === ends[0]) && ENDS.some((end) => scene.idsAt(json, end).some((id) => scene.endAt(id).port));
  return list(json.labels).map((label) => {
    const place = askedBy(label, json, 'edgeLabels.placement', 'CENTER');
    return {
      ...{ label, edge: json, ends, name: `the ${place} label of the edge ${json.id}`, rect: rectOf(label, level.box) },
      ...{ isPlaced: true, isOfLoop, isAtEnd: place !== 'CENTER', isInline: askedBy(label, json, 'edgeLabels.inline', false) === 'TRUE' },
      within: [level, ...level.holders],
      crossed,
    };
  });
}

const constraintsOf = ({ json }) => wordsOf(wordOf(json, 'nodeSize.constraints', ''));

/** Whether a node grows for all that stands in it and at it. */
const growsFor = (node, names) => names.every((name) => constraintsOf(node).has(name));

/** Whether a node is as large as all labels within it need. */
function growsForLabels(node) {
  const isWithin = wordsOf(wordOf(node.json, 'portLabels.placement', '')).has('INSIDE');
  const hasPortLabels = isWithin && node.ports.some(({ json }) => list(json.labels).length > 0);
  return growsFor(node, ['NODE_LABELS', ...(hasPortLabels ? ['PORTS', 'PORT_LABELS'] : [])]);
}

/** The labels of a document that are placed. */
function labelsIn(scene) {
  const ofNodes = [...scene.nodes.values()].flatMap(labelsOfNode);
  const ofPorts = [...scene.ports.values()].flatMap(labelsOfPort);
  const ofEdges = scene.edges.flatMap((edge) => labelsOfEdge(scene, edge));
  return [...ofNodes, ...ofPorts, ...ofEdges].filter(({ isPlaced, label }) => isPlaced && label.width > 0 && label.height > 0);
}

/** Where a route crosses the border of a node, within which it has one of its ends. */
function crossingOf({ source, target, segments }, node) {
  const rect = rectOfBox(node.box);
  const isCrossed = node !== source.node && node !== target.node && isWithin(source.node, node) !== isWithin(target.node, node);
  const line = isCrossed && segments.find(([p, q]) => isOutside(p, rect) !== isOutside(q, rect));
  const outer = line && line.find((p) => isOutside(p, rect));
  return outer && { x: Math.min(Math.max(outer.x, rect.x0), rect.x1), y: Math.min(Math.max(outer.y, rect.y0), rect.y1), w: 0, h: 0 };
}

/** The nodes at which a route ends, and those whose borders it crosses. */
const nodesAt = ({ source, target }) =>
  [source, target].flatMap(({ node }) => [node, ...node.holders]).filter((node, at, all) => node === source.node || node === target.node || all.indexOf(node) === all.lastIndexOf(node));

/** What stands at each node: its ports, ends of edges at itself, and places where edges cross its border. */
function docksOf(scene, routes) {
  const docks = new Map([...scene.nodes.values()].map((node) => [node, []]));
  scene.ports.forEach(({ node, box: { x, y, w, h } }) => docks.get(node).push({ x: x + w / 2, y: y + h / 2, w, h }));
  for (const route of routes) {
    const { source, target, points } = route;
    const ends = [[source, points[0]], [target, points.at(-1)]].filter(([{ port }]) => !port);
    ends.forEach(([{ node }, { x, y }]) => docks.get(node).push({ x, y, w: 0, h: 0 }));
    const crossings = nodesAt(route).map((node) => [node, crossingOf(route, node)]).filter(([, dock]) => dock);
    crossings.forEach(([node, dock]) => docks.get(node).push(dock));
  }
  return docks;
}

const stackOf = (labels) => ({
  width: Math.max(0, ...labels.map(({ width }) => num(width))),
  height: labels.reduce((sum, { height }) => sum + num(height) + SPACE, 0),
});

/** The nodes at which things stand closer together than labels there are large, or whose sides are shorter. */
function crowdedNodes(scene, routes, labels) {
  const docks = docksOf(scene, routes);
  const stacks = new Map([...scene.nodes.values()].map((node) => [node, node.ports.map(({ json }) => stackOf(list(json.labels)))]));
  for (const { edge, ends } of labels.filter((it) => it.edge)) {
    ends.forEach((node) => stacks.get(node).push(stackOf(list(edge.labels))));
  }
  const isCrowded = (node) => {
    const [width, height] = ['width', 'height'].map((name) => Math.max(0, ...stacks.get(node).map((it) => it[name])) + SPACE);
    const here = docks.get(node);
    const areClose = (a, b) => Math.abs(a.x - b.x) < width + (a.w + b.w) / 2 && Math.abs(a.y - b.y) < height + (a.h + b.h) / 2;
    const isNarrow = node.box.w < width || node.box.h < height;
    return isNarrow || here.some((a, at) => here.slice(at + 1).some((b) => areClose(a, b)));
  };
  return new Set([...scene.nodes.values()].filter((node) => isCrowded(node)));
}

/** The nodes within which edges that cross borders end. */
function openNodes(scene) {
  const pairs = scene.edges.flatMap((edge) => scene.pairsOf(edge));
  const across = pairs.filter(({ source, target }) => source.parent !== target.parent);
  return new Set(across.flatMap(({ source, target }) => [...source.holders, ...target.holders]));
}

class Judge {
  constructor(scene, routes) {
    this.scene = scene;
    this.routes = routes;
    this.nodes = [...scene.nodes.values()];
    const labels = labelsIn(scene);
    this.open = openNodes(scene);
    this.crowded = crowdedNodes(scene, routes, labels);
    this.labels = labels.filter((label) => !this.#hasNoRoom(label));
  }

  /** Whether a label within a node has no room there, for which the node doesn't grow. */
  #hasNoRoom({ node, isInside, rect }) {
    return isInside && !growsForLabels(node) && !isIn(rect, rectOfBox(node.box));
  }

  /** Whether two labels stand within one node that doesn't grow for them. */
  #shareNode(one, other) {
    return one.isInside && other.isInside && one.node === other.node && !growsForLabels(one.node);
  }

  /** Whether labels at a node may meet what else is there. */
  #isLoose(node) {
    const isPinned = wordOf(node.json, 'portConstraints', '') === 'FIXED_POS';
    return (isPinned || this.open.has(node) || !growsFor(node, ['PORTS', 'PORT_LABELS'])) && this.crowded.has(node);
  }

  /** Whether docs/EDITORS.md lets a label of a port, or of a self-loop at one, meet something at their node. */
  #mayMeet({ isOfPort, isOfLoop, node, ends }, owners) {
    return (isOfPort || isOfLoop) && [node ?? ends[0]].some((it) => this.#isLoose(it) && owners.includes(it));
  }

  /** Whether it lets a label at an end of an edge meet ports and other labels of its node. */
  #mayMeetThere({ isAtEnd, ends }, node) {
    return isAtEnd && ends.includes(node) && this.#isLoose(node);
  }

  /** Whether it lets labels at ends of two edges meet, since both stand at one node. */
  #mayMeetAtEnd(one, other) {
    return other.isAtEnd && one.isAtEnd && other.ends.some((node) => this.#mayMeetThere(one, node));
  }

  /** Whether a port reaches into its node so that labels there may meet it. */
  #reachesIn({ isInside, node }, port) {
    return isInside && node === port.node && wordOf(node.json, 'portConstraints', '') === 'FIXED_POS' && overlap(rectOfBox(port.box), rectOfBox(node.box));
  }

  /** Whether a label in the middle of a node that holds others lies over what stands there. */
  #liesOver({ isMiddle, isInside, node }, owners) {
    return isMiddle && isInside && node.children.length > 0 && owners.some((it) => isWithin(it, node));
  }

  * #nodeFaults({ name, rect, within, crossed, ...label }) {
    for (const node of this.nodes) {
      const box = rectOfBox(node.box);
      const isMet = overlap(rect, box);
      if (within.includes(node)) {
        yield* isIn(rect, box) ? [] : [`${name} reaches out of ${node.json.id}`];
      } else if (crossed?.has(node)) {
        yield* isMet && !isIn(rect, box) ? [`${name} is on the border of ${node.json.id}`] : [];
      } else if (isMet && !this.#liesOver(label, [node])) {
        yield `${name} meets the node ${node.json.id}`;
      }
    }
  }

  * #portFaults(label) {
    for (const port of this.scene.ports.values()) {
      const { json, node, box } = port;
      const isThere = this.#mayMeet(label, [node]) || this.#mayMeetThere(label, node);
      const isAllowed = isThere || this.#liesOver(label, [node]) || this.#reachesIn(label, port);
      if (overlap(label.rect, rectOfBox(box)) && !isAllowed) {
        yield `${label.name} meets ${label.node === node ? 'the own port' : 'the port'} ${json.id}`;
      }
    }
  }

  /** Whether an edge begins or ends at a dock of a route, so that both may run on one line. */
  #sharesDock({ id }, { docks }) {
    return this.routes.some((own) => own.id === id && own.docks.some((dock) => docks.includes(dock)));
  }

  /** Whether a route ends at a port that reaches into its leaf, so that it may meet labels there between the border and the port. */
  #leadsIn(label, { source, target }) {
    return [source, target].some(({ node, port }) => port && node.children.length === 0 && this.#reachesIn(label, port));
  }

  * #routeFaults(label) {
    for (const route of this.routes) {
      const { id, segments, routing } = route;
      const owners = nodesAt(route);
      const isOwn = label.edge?.id === id;
      const isOnLine = label.isInline && (isOwn || this.#sharesDock(label.edge, route));
      const isAllowed = this.#mayMeet(label, owners) || this.#liesOver(label, owners) || this.#leadsIn(label, route) || isOnLine;
      const rect = routing === 'SPLINES' ? within(label.rect, GRAZED) : label.rect;
      if (!isAllowed && segments.some((it) => reachesInto(it, rect))) {
        yield `${label.name} meets ${isOwn ? 'its own edge' : 'the edge'} ${id}${routing ? ', slanted or curved' : ''}`;
      }
    }
  }

  * #labelFaults(label, others) {
    const ownersOf = ({ node, ends = [] }) => (node ? [node] : ends);
    const mayMeet = (one, other) =>
      this.#mayMeet(one, ownersOf(other)) ||
      this.#liesOver(one, ownersOf(other)) ||
      (other.node ? this.#mayMeetThere(one, other.node) : this.#mayMeetAtEnd(one, other));
    for (const other of others.filter(({ rect }) => overlap(rect, label.rect))) {
      if (!this.#shareNode(label, other) && !mayMeet(label, other) && !mayMeet(other, label)) {
        yield `${label.name} meets ${other.name}`;
      }
    }
  }

  * faults() {
    for (const [at, label] of this.labels.entries()) {
      yield* this.#nodeFaults(label);
      yield* this.#portFaults(label);
      yield* this.#routeFaults(label);
      yield* this.#labelFaults(label, this.labels.slice(at + 1));
    }
  }
}

/**
 * @param {import('./scene').Scene} scene a placed document
 * @param {object[]} routes its routes, each with the lines of which it is made
 * @returns {string[]}
 */
const labelFaults = (scene, routes) => [...new Judge(scene, routes).faults()];

module.exports = { labelFaults };
