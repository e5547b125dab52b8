'use strict';
// Nested documents with edges that cross borders, drawn at random, the same for the same seed.

const { chance } = require('./chance');

const DIRECTIONS = ['RIGHT', 'LEFT', 'DOWN', 'UP'];
const SIDES = ['NORTH', 'EAST', 'SOUTH', 'WEST'];
const PLACEMENTS = ['CENTER', 'CENTER', 'HEAD', 'TAIL'];

// What spreads seeds that lie next to one another.
const [SPREAD, START] = [2654435761, 12345];

class Maker {
  #draw;
  #how;
  #made = 0;
  #nodes = [];

  constructor(seed, asked) {
    const draw = chance(seed * SPREAD + START);
    this.#draw = draw;
    const { below, is, of, part } = draw;
    this.#how = {
      ...{ nodes: 5 + below(56), depth: 1 + below(4), across: part() * 0.4, ports: of([0, 0, 0.3, 0.7]) },
      ...{ mixed: is(0.4), pins: is(0.4), density: 0.7 + part() * 0.8, direction: of(DIRECTIONS), inward: is(0.3) },
      ...{ hyper: 0, labels: 0, ...asked },
    };
  }

  graph() {
    const root = { id: 'root', layoutOptions: this.#optionsOf(true), children: [], edges: [] };
    this.#grow(root, 1, this.#how.nodes);
    this.parents = new Map(this.#nodes.map(({ node, level }) => [node, level]));
    this.siblings = new Map();
    this.#nodes.forEach(({ node, level }) => this.siblings.set(level, [...(this.siblings.get(level) ?? []), node]));
    const count = Math.round(this.#how.nodes * this.#how.density);
    root.edges = Array.from({ length: count }, (_, at) => this.#edge(at)).filter(Boolean);
    return root;
  }

  #optionsOf(isRoot) {
    const { below, is, of } = this.#draw;
    const { mixed, direction } = this.#how;
    const options = { 'elk.direction': mixed && !isRoot ? of(DIRECTIONS) : direction };
    if (is(0.2)) {
      options['elk.padding'] = `[top=${1 + below(40)},left=${5 + below(20)},bottom=${5 + below(20)},right=${1 + below(30)}]`;
    }
    const sometimes = [
      [0.15, 'elk.spacing.nodeNode', () => 5 + below(40)],
      [0.15, 'elk.layered.spacing.nodeNodeBetweenLayers', () => 10 + below(40)],
      [0.1, 'elk.separateConnectedComponents', () => true],
      [0.15, 'elk.layered.nodePlacement.strategy', () => 'NETWORK_SIMPLEX'],
      [0.05, 'elk.layered.order', () => 'DOCUMENT'],
    ];
    for (const [probability, name, value] of sometimes) {
      if (is(probability)) {
        options[name] = value();
      }
    }
    return options;
  }

  #addPorts(node, isLevel) {
    const { below, of } = this.#draw;
    const rule = of(['FREE', 'FREE', 'FIXED_SIDE', 'FIXED_ORDER', 'FIXED_POS']);
    const count = 1 + below(4);
    node.layoutOptions = { ...node.layoutOptions, 'elk.portConstraints': rule };
    node.ports = [];
    const cursor = { NORTH: 10, EAST: 10, SOUTH: 10, WEST: 10 };
    for (let at = 0; at < count; at += 1) {
      const side = of(SIDES);
      const size = of([0, 4, 8]);
      const options = {
        ...(rule !== 'FREE' && { 'elk.port.side': side }),
        ...(rule === 'FIXED_ORDER' && { 'elk.port.index': below(5) }),
      };
      const port = { id: `${node.id}.p${at}`, width: size, height: size, layoutOptions: options };
      if (rule !== 'FIXED_POS' || this.#pin(node, port, { side, cursor, isLevel })) {
        node.ports.push(port);
      }
    }
  }

  /** Gives a port its place at a side; false if the side has no room for it. */
  #pin(node, port, { side, cursor, isLevel }) {
    const at = cursor[side];
    cursor[side] += port.width + 6 + this.#draw.below(10);
    const isUpright = side === 'EAST' || side === 'WEST';
    const { width = 0, height = 0 } = node;
    if (!isLevel && cursor[side] > (isUpright ? height : width)) {
      return false;
    }
    const places = {
      NORTH: { x: at, y: -port.width },
      EAST: { x: width, y: at },
      SOUTH: { x: at, y: height },
      WEST: { x: -port.width, y: at },
    };
    Object.assign(port, places[side]);
    return true;
  }

  #grow(level, depth, budget) {
    const { below, is } = this.#draw;
    const { pins, ports } = this.#how;
    for (let left = budget; left > 0; ) {
      this.#made += 1;
      const node = { id: `n${this.#made}` };
      this.#nodes.push({ node, level });
      left -= 1;
      if (depth < this.#how.depth && left > 1 && is(depth === 1 ? 0.5 : 0.35)) {
        const share = Math.min(left, 1 + below(Math.ceil(left / 2) + 1));
        Object.assign(node, { layoutOptions: this.#optionsOf(false), children: [] });
        if (pins && is(0.4)) {
          this.#addPorts(node, true);
        }
        this.#grow(node, depth + 1, share);
        left -= share;
      } else {
        Object.assign(node, { width: 20 + 5 * below(16), height: 20 + 5 * below(9) });
        if (is(ports)) {
          this.#addPorts(node, false);
        }
      }
      level.children.push(node);
    }
  }

  #isWithin(node, other) {
    return node === other || (this.parents.has(node) && this.#isWithin(this.parents.get(node), other));
  }

  /** Whether an edge may join two nodes of which neither may hold the other. */
  #isFree(one, other) {
    return this.#how.inward || (!this.#isWithin(one, other) && !this.#isWithin(other, one));
  }

  #endAt(node) {
    const { is, of } = this.#draw;
    return node.ports?.length > 0 && is(0.8) ? of(node.ports).id : node.id;
  }

  #targetOf(source, all) {
    const { is, of } = this.#draw;
    const { parents } = this;
    if (is(this.#how.across)) {
      const others = all.filter((it) => parents.get(it) !== parents.get(source) && this.#isFree(it, source));
      return others.length > 0 ? of(others) : undefined;
    }
    if (is(0.03)) {
      return source;
    }
    const others = this.siblings.get(parents.get(source)).filter((it) => it !== source);
    return others.length > 0 ? of(others) : undefined;
  }

  #edge(at) {
    const { is, of } = this.#draw;
    const all = this.#nodes.map(({ node }) => node);
    const source = of(all);
    const target = this.#targetOf(source, all);
    if (!target) {
      return undefined;
    }
    const edge = { id: `e${at}`, sources: [this.#endAt(source)], targets: [this.#endAt(target)] };
    if (is(this.#how.hyper)) {
      const more = of(all);
      edge.targets.push(...(more !== source && this.#isFree(more, source) ? [this.#endAt(more)] : []));
    }
    if (is(this.#how.labels)) {
      const text = of(['a', 'label', 'a longer label']);
      edge.labels = [{ text, layoutOptions: { 'elk.edgeLabels.placement': of(PLACEMENTS) } }];
    }
    return edge;
  }
}

/**
 * A document for a seed.
 * @param {number} seed
 * @param {object} [asked] what else is drawn at random: `nodes`, `depth`, `direction`, `across` (the share of edges that
 *   cross borders), `ports` (that of leaves with ports), `mixed` (whether directions differ), `pins` (whether nodes with
 *   children have ports), `density`, `labels` and `hyper` (shares of edges with labels and with two targets), `inward`
 *   (whether edges join nodes with what stands within them)
 */
const acrossBorders = (seed, asked = {}) => new Maker(seed, asked).graph();

module.exports = { acrossBorders };
