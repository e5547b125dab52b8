'use strict';
// Nested documents with labels of all kinds, drawn by chance; and what is wrong with the labels of a placed document.

const { chance } = require('./chance');
const { elementsOf, numberOr0, pointsOf } = require('./placed');

const SIDES = ['NORTH', 'EAST', 'SOUTH', 'WEST'];
const ROOM = 34;

class Maker {
  #draw;
  #count = 0;

  constructor(seed) {
    this.#draw = chance(seed);
  }

  #id(kind) {
    this.#count += 1;
    return `${kind}${this.#count}`;
  }

  #label(more = {}) {
    const text = 'label of some words'.slice(0, this.#draw.from(1, 19)).trim();
    const size = { width: this.#draw.from(4, 90) + this.#draw.of([0, 0.5]), height: this.#draw.from(8, 20) };
    return { text, ...(this.#draw.is(0.8) && size), ...more };
  }

  graph() {
    return { id: 'root', ...this.#level(2) };
  }

  #level(depth) {
    const { below, from, is, of } = this.#draw;
    const children = Array.from({ length: from(2, 7) }, () => this.#node(depth));
    const isOfBoxes = is(0.08);
    const edges = Array.from({ length: isOfBoxes ? 0 : below(children.length * 2) }, () => this.#edge(children));
    const direction = of(['RIGHT', 'DOWN', 'LEFT', 'UP']);
    return {
      children,
      edges,
      layoutOptions: {
        'elk.direction': direction,
        ...(isOfBoxes && { 'elk.algorithm': 'box' }),
        ...(is(0.2) && { 'elk.layered.nodePlacement.strategy': 'NETWORK_SIMPLEX' }),
        ...(is(0.1) && { 'elk.spacing.nodeNode': 1, 'elk.spacing.edgeNode': 2, 'elk.spacing.edgeEdge': 3 }),
        ...(is(0.2) && { 'elk.separateConnectedComponents': true }),
        ...(is(0.1) && { 'elk.layered.mergeEdges': true }),
        ...(is(0.2) && { 'elk.spacing.labelLabel': 3, 'elk.spacing.edgeLabel': 5 }),
      },
    };
  }

  #node(depth) {
    const { from, is, of } = this.#draw;
    const rule = of(['FREE', 'FIXED_SIDE', 'FIXED_ORDER', 'FIXED_POS']);
    const level = depth > 0 && is(0.2) ? this.#level(depth - 1) : {};
    const ports = Array.from({ length: is(0.6) ? from(0, 4) : 0 }, () => this.#port());
    const size = { width: from(30, 140), height: from(44, 100) };
    if (rule === 'FIXED_POS') {
      this.#pin(ports, size);
    }
    return {
      id: this.#id('n'),
      ...size,
      ...level,
      ...(ports.length > 0 && { ports }),
      ...(is(0.5) && { labels: this.#nodeLabels(level.children !== undefined) }),
      layoutOptions: {
        ...level.layoutOptions,
        'elk.portConstraints': rule,
        'elk.nodeSize.constraints': 'PORTS PORT_LABELS NODE_LABELS MINIMUM_SIZE',
        'elk.portLabels.placement': of(['OUTSIDE', 'INSIDE']),
      },
    };
  }

  #port() {
    const { below, is, of } = this.#draw;
    return {
      id: this.#id('p'),
      width: below(11),
      height: below(11),
      ...(is(0.6) && { labels: [this.#label()] }),
      layoutOptions: { 'elk.port.side': of(SIDES), ...(is(0.3) && { 'elk.port.index': below(5) }) },
    };
  }

  // Pinned ports of a side stand so far apart that their labels fit between them.
  #pin(ports, size) {
    const room = { NORTH: 150, EAST: ROOM, SOUTH: 150, WEST: ROOM };
    const corner = { NORTH: 60, EAST: 80, SOUTH: 60, WEST: 80 };
    for (const side of SIDES) {
      const here = ports.filter(({ layoutOptions }) => layoutOptions['elk.port.side'] === side);
      here.forEach((port, at) => {
        const along = corner[side] + at * room[side];
        const isFlat = side === 'EAST' || side === 'WEST';
        size.width = Math.max(size.width, isFlat ? 0 : along + 60);
        size.height = Math.max(size.height, isFlat ? along + 80 : 0);
        Object.assign(port, isFlat ? { y: along } : { x: along });
      });
      here.forEach((port) => {
        const { width, height } = port;
        const far = { NORTH: { y: -height }, SOUTH: { y: size.height }, WEST: { x: -width }, EAST: { x: size.width } };
        Object.assign(port, far[side]);
      });
    }
    ports.forEach((port) => {
      const { 'elk.port.side': side } = port.layoutOptions;
      if (side === 'EAST') port.x = size.width;
      if (side === 'SOUTH') port.y = size.height;
    });
  }

  #nodeLabels(isLevel) {
    const { of } = this.#draw;
    const inside = ['V_TOP H_LEFT', 'V_TOP H_CENTER', 'V_BOTTOM H_RIGHT', ...(isLevel ? [] : ['V_CENTER H_CENTER'])];
    const beside = ['V_CENTER H_LEFT', 'V_CENTER H_RIGHT'];
    const outside = ['V_TOP H_LEFT', 'V_TOP H_CENTER', 'V_BOTTOM H_CENTER', 'V_BOTTOM H_RIGHT', ...beside];
    const placement = of([...inside.map((it) => `INSIDE ${it}`), ...outside.map((it) => `OUTSIDE ${it}`)]);
    return [this.#label({ layoutOptions: { 'elk.nodeLabels.placement': placement } })];
  }

  #end(children) {
    const { is, of } = this.#draw;
    const node = of(children);
    // Lines between pinned ports would stand too near their labels.
    const isPinned = node.layoutOptions['elk.portConstraints'] === 'FIXED_POS';
    return node.ports && (isPinned || is(0.5)) ? of(node.ports).id : node.id;
  }

  #edge(children) {
    const { from, is, of } = this.#draw;
    const nodeOf = (id) => children.find((node) => node.id === id || node.ports?.some((port) => port.id === id));
    const source = this.#end(children);
    const targets = Array.from({ length: is(0.1) ? from(2, 3) : 1 }, () => this.#end(children));
    const looped = targets.map(nodeOf).find((node) => node === nodeOf(source));
    const isFree = !looped || targets.length === 1;
    const labels = Array.from({ length: is(0.6) && isFree ? from(1, 2) : 0 }, () =>
      this.#label({
        layoutOptions: {
          'elk.edgeLabels.placement': of(['CENTER', 'CENTER', 'HEAD', 'TAIL']),
          ...(is(0.2) && { 'elk.edgeLabels.inline': true }),
        },
      }),
    );
    return {
      id: this.#id('e'),
      sources: [source],
      targets: [...new Set(targets)],
      ...(labels.length > 0 && { labels }),
    };
  }
}

/** A document for a seed. */
const labelled = (seed) => new Maker(seed).graph();

const rectOf = ({ x, y, width, height }, { left, top }) => ({
  left: left + numberOr0(x),
  top: top + numberOr0(y),
  right: left + numberOr0(x) + numberOr0(width),
  bottom: top + numberOr0(y) + numberOr0(height),
});

const overlap = (one, other) =>
  one.left < other.right && other.left < one.right && one.top < other.bottom && other.top < one.bottom;

const isIn = (inner, outer) =>
  outer.left <= inner.left && inner.right <= outer.right && outer.top <= inner.top && inner.bottom <= outer.bottom;

/** Everything of a placed document in the coordinates of the whole drawing. */
function shapesOf(root) {
  const shapes = { nodes: [], ports: [], labels: [], lines: [] };
  const isInside = (placement) => /INSIDE/.test(placement ?? '');
  const enter = (node, holders, at) => {
    const rect = rectOf(node, at);
    const all = [...holders, node];
    const level = holders.at(-1) ?? node;
    shapes.nodes.push({ rect, node, holders: all });
    const add = (label, own, place, within) =>
      shapes.labels.push({ rect: rectOf(label, place), label, own, holders: within });
    elementsOf(node.labels).forEach((label) => {
      const inside = isInside(label.layoutOptions?.['elk.nodeLabels.placement']);
      add(label, node, rect, inside ? all : [...holders]);
    });
    for (const port of elementsOf(node.ports)) {
      const box = rectOf(port, rect);
      shapes.ports.push({ rect: box, port });
      const inside = isInside(node.layoutOptions?.['elk.portLabels.placement']);
      elementsOf(port.labels).forEach((label) => add(label, port, box, inside ? all : [...holders]));
    }
    for (const edge of elementsOf(node.edges)) {
      elementsOf(edge.labels).forEach((label) => add(label, edge, rect, all));
      for (const points of elementsOf(edge.sections).map(pointsOf)) {
        points.slice(1).forEach((to, k) => {
          const from = points[k];
          const line = {
            left: rect.left + Math.min(from.x, to.x),
            right: rect.left + Math.max(from.x, to.x),
            top: rect.top + Math.min(from.y, to.y),
            bottom: rect.top + Math.max(from.y, to.y),
          };
          shapes.lines.push({ rect: line, edge });
        });
      }
    }
    elementsOf(node.children).forEach((child) => enter(child, all, rect));
    return level;
  };
  enter(root, [], { left: 0, top: 0 });
  return shapes;
}

const isInline = ({ layoutOptions }) => layoutOptions?.['elk.edgeLabels.inline'] === true;

/** What the labels of a placed document meet that they should not, in plain words. */
function labelFaults(root) {
  const { nodes, ports, labels, lines } = shapesOf(root);
  const faults = [];
  const say = ({ label, own }, what) => faults.push(`the label ${JSON.stringify(label.text)} of ${own.id} ${what}`);
  const rects = new Map(nodes.map(({ node, rect }) => [node, rect]));
  labels.forEach((it, at) => {
    const { rect, holders, own, label } = it;
    const level = holders.at(-1);
    if (![label.x, label.y, label.width, label.height].every(Number.isFinite)) {
      say(it, 'is not placed');
    }
    if (level && !isIn(rect, rects.get(level))) {
      say(it, `reaches out of ${level.id}`);
    }
    for (const { node, rect: box } of nodes) {
      if (!holders.includes(node) && overlap(rect, box)) {
        say(it, `meets the node ${node.id}`);
      }
    }
    for (const { port, rect: box } of ports) {
      if (overlap(rect, box)) {
        say(it, `meets the port ${port.id}`);
      }
    }
    for (const { edge, rect: line } of lines) {
      if (overlap(rect, line) && !(edge === own && isInline(label))) {
        say(it, `meets the edge ${edge.id}`);
      }
    }
    for (const other of labels.slice(at + 1)) {
      if (overlap(rect, other.rect)) {
        say(it, `meets the label ${JSON.stringify(other.label.text)} of ${other.own.id}`);
      }
    }
  });
  return faults;
}

module.exports = { labelFaults, labelled };
