'use strict';
// A placed document in the coordinates of the whole drawing, read anew: it shares no code with what draws.

const list = (value) => (Array.isArray(value) ? value : []);
const num = (value) => (Number.isFinite(value) ? value : 0);

const SIDES = ['NORTH', 'EAST', 'SOUTH', 'WEST'];
const isUpright = (side) => side === 'EAST' || side === 'WEST';

/** An option of an element by one of its whole names, or else what stands for it. */
function optionOf(element, name, byDefault) {
  for (const given of [element.layoutOptions ?? {}, element.properties ?? {}]) {
    const key = ['org.eclipse.elk.', 'elk.', ''].map((prefix) => prefix + name).find((it) => it in given);
    if (key !== undefined) {
      return given[key];
    }
  }
  return byDefault;
}

const wordOf = (element, name, byDefault) => String(optionOf(element, name, byDefault)).toUpperCase();

const boxOf = ({ x, y, width, height }, base) => ({ x: base.x + num(x), y: base.y + num(y), w: num(width), h: num(height) });

const DIRECTIONS = ['RIGHT', 'LEFT', 'DOWN', 'UP'];
const HANDLINGS = ['INCLUDE_CHILDREN', 'SEPARATE_CHILDREN'];

/** Whether a node is laid out together with the one around it and with what stands in it. */
const isIncluded = (node) =>
  [node, ...node.holders].map(({ json }) => wordOf(json, 'hierarchyHandling', '')).find((it) => HANDLINGS.includes(it)) === HANDLINGS[0];

/** What a level asks for by an option, or else the level around it if the two are laid out together; nothing if neither does. */
function sharedOption(level, name, values) {
  const asked = wordOf(level.json, name, '');
  const isTaken = !values.includes(asked) && ['', 'UNDEFINED'].includes(asked) && level.parent;
  return isTaken && isIncluded(level) && isIncluded(level.parent) ? sharedOption(level.parent, name, values) : values.find((it) => it === asked);
}

/** The direction of a level. */
const directionOf = (level) => sharedOption(level, 'direction', DIRECTIONS) ?? 'RIGHT';

/** The style in which routes of a level are drawn. */
const routingOf = (level) => sharedOption(level, 'edgeRouting', ['ORTHOGONAL', 'POLYLINE', 'SPLINES']) ?? 'ORTHOGONAL';

/** The sections of an edge that follow one another, from each end at a source to each at a target. */
function chainsOf(sections) {
  const byId = new Map(sections.map((section) => [section.id, section]));
  const follow = (section) =>
    list(section.outgoingSections).length > 0
      ? section.outgoingSections.flatMap((id) => follow(byId.get(id)).map((rest) => [section, ...rest]))
      : [[section]];
  return sections.filter((section) => list(section.incomingSections).length === 0).flatMap(follow);
}

const isTurn = (p, at, all) => {
  const [before, after] = [all[at - 1], all[at + 1]];
  const isOnLine = before && after && ((before.x === p.x && p.x === after.x) || (before.y === p.y && p.y === after.y));
  return !isOnLine;
};

/** The node in which two nodes are joined. One that holds the other is that node itself, and a loop is in the node around. */
function levelOf(source, target) {
  return source === target ? source.parent : [target, ...target.holders].find((it) => isWithin(source, it));
}

class Scene {
  /** @param {object} root a document, placed or not */
  constructor(root) {
    this.nodes = new Map();
    this.ports = new Map();
    this.edges = [];
    this.root = this.#enter(root, undefined, { x: 0, y: 0 });
  }

  #enter(json, parent, base) {
    const box = boxOf(json, base);
    const node = { json, parent, box, ports: [], holders: new Set(parent ? [parent, ...parent.holders] : []) };
    this.nodes.set(json.id, node);
    node.ports = list(json.ports).map((port) => ({ json: port, node, box: boxOf(port, box) }));
    node.ports.forEach((port) => this.ports.set(port.json.id, port));
    const all = [box, ...node.ports.map((port) => port.box)];
    node.outline = {
      x0: Math.min(...all.map(({ x }) => x)),
      y0: Math.min(...all.map(({ y }) => y)),
      x1: Math.max(...all.map(({ x, w }) => x + w)),
      y1: Math.max(...all.map(({ y, h }) => y + h)),
    };
    list(json.edges).forEach((edge) => this.edges.push({ json: edge, at: node }));
    node.children = list(json.children).map((child) => this.#enter(child, node, box));
    return node;
  }

  /** The node, and the port if it is that of one, of an id. */
  endAt(id) {
    const node = this.nodes.get(id);
    return node ? { node } : { port: this.ports.get(id), node: this.ports.get(id).node };
  }

  /** The ids at an end of an edge. */
  idsAt(edge, end) {
    return 'sources' in edge || 'targets' in edge ? list(edge[`${end}s`]) : [edge[`${end}Port`] ?? edge[end]];
  }

  /** The node, and the port if one is named, at an end of an edge. */
  endOf(edge, end, section) {
    const ids = this.idsAt(edge, end);
    return this.endAt(ids.length > 1 ? section[end === 'source' ? 'incomingShape' : 'outgoingShape'] : ids[0]);
  }

  /** The pairs of nodes that an edge joins. */
  pairsOf({ json }) {
    const [sources, targets] = ['source', 'target'].map((end) => this.idsAt(json, end).map((id) => this.endAt(id).node));
    return sources.flatMap((source) => targets.map((target) => ({ source, target })));
  }

  /** The node to whose content the points of an edge are relative: the outermost in which it joins two of its ends. */
  containerOf(edge) {
    const levels = this.pairsOf(edge).map(({ source, target }) => levelOf(source, target) ?? edge.at);
    return levels.reduce((best, level) => (level.holders.size < best.holders.size ? level : best));
  }

  /** The routes of an edge: one for each pair of its ends. */
  routesOf(edge) {
    const { x, y } = this.containerOf(edge).box;
    return chainsOf(list(edge.json.sections)).map((chain) => {
      const moved = (point) => ({ x: point.x + x, y: point.y + y });
      const sections = chain.map(({ startPoint, bendPoints, endPoint }) => [startPoint, ...list(bendPoints), endPoint].map(moved));
      const points = sections.flat();
      const isNew = (p, at) => at === 0 || p.x !== points[at - 1].x || p.y !== points[at - 1].y;
      // Where sections meet, a route needn't turn. A loop at one dock is a point.
      const kept = chain.length > 1 ? points.filter(isNew).filter(isTurn) : points;
      return {
        id: edge.json.id,
        source: this.endOf(edge.json, 'source', chain[0]),
        target: this.endOf(edge.json, 'target', chain.at(-1)),
        points: kept.length > 1 ? kept : [points[0], points.at(-1)],
        /** The points of each of its sections. */
        sections,
        routing: edge.json.routing,
      };
    });
  }
}

/** Whether a node is another one or stands within it. */
const isWithin = (node, other) => node === other || node.holders.has(other);

/** The pieces of a route as rectangles without a width. */
const piecesOf = (points) =>
  points.slice(1).map((q, k) => ({
    x0: Math.min(points[k].x, q.x),
    x1: Math.max(points[k].x, q.x),
    y0: Math.min(points[k].y, q.y),
    y1: Math.max(points[k].y, q.y),
  }));

/** Whether a rectangle reaches into a box. */
const enters = (s, { x, y, w, h }) => s.x0 < x + w && s.x1 > x && s.y0 < y + h && s.y1 > y;

module.exports = {
  SIDES,
  Scene,
  chainsOf,
  directionOf,
  enters,
  isUpright,
  isWithin,
  levelOf,
  list,
  num,
  optionOf,
  piecesOf,
  routingOf,
  wordOf,
};
