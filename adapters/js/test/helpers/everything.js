'use strict';
// Documents with all that a layout can be asked for at once, drawn at random, the same for the same seed.

const { chance } = require('./chance');
const { addEdges } = require('./everything-edges');
const { nodeLabelsFor } = require('./everything-labels');
const { LEVEL_OPTIONS, ORDERS } = require('./everything-options');
const { portsFor } = require('./everything-ports');

const PREFIXES = ['elk.', 'elk.', 'org.eclipse.elk.', ''];
const DIRECTIONS = ['RIGHT', 'LEFT', 'DOWN', 'UP'];
const CONSTRAINTS = ['FIRST', 'FIRST', 'LAST', 'LAST', 'FIRST_SEPARATE', 'LAST_SEPARATE'];
const SIZES = ['PORTS PORT_LABELS NODE_LABELS MINIMUM_SIZE', '[NODE_LABELS, PORTS, PORT_LABELS]', 'MINIMUM_SIZE', 'PORTS', 'NODE_LABELS', ''];

// What spreads seeds that lie next to one another.
const [SPREAD, START] = [2654435761, 4711];

/** How much of each kind a document has: shares of its elements, and what it has at all. */
function habitsOf({ below, from, is, of, part }) {
  const share = (probability, most) => (is(probability) ? part() * most : 0);
  return {
    ...{ nodes: from(3, 40), depth: from(1, 4), nesting: 0.2 + part() * 0.5, density: 0.4 + part() * 1.2 },
    ...{ across: share(0.8, 0.6), inward: share(0.4, 0.4), loops: share(0.7, 0.2), hyper: share(0.5, 0.3) },
    ...{ ports: share(0.8, 1), groupPorts: share(0.6, 0.7), labels: share(0.8, 1), fractions: share(0.5, 1) },
    ...{ layers: is(0.4), partitions: is(0.25), kept: is(0.35), boxes: share(0.2, 0.3), closed: share(0.2, 0.3) },
    ...{ routing: of([undefined, undefined, 'ORTHOGONAL', 'POLYLINE', 'POLYLINE', 'SPLINES', 'SPLINES']), mixed: is(0.4) },
    ...{ direction: of(DIRECTIONS), prefix: of(PREFIXES), isNumbered: is(0.1), sizes: of(SIZES), options: part() },
    ...{ coordinates: is(0.3), merged: is(0.2), hasRootId: is(0.95), included: below(3) },
  };
}

class Maker {
  #count = 0;

  constructor(seed, asked) {
    this.draw = chance(seed * SPREAD + START);
    this.how = { ...habitsOf(this.draw), ...asked };
    /** All nodes but the root, each with its parent. */
    this.parents = new Map();
  }

  /** A new id: a text with the kind of its element, or a number. */
  id(kind) {
    this.#count += 1;
    return this.how.isNumbered ? this.#count : `${kind}${this.#count}`;
  }

  /** Options by whole names, in the spelling of the document. */
  options(named) {
    const there = Object.entries(named).filter(([, value]) => value !== undefined);
    return Object.fromEntries(there.map(([name, value]) => [this.how.prefix + name, value]));
  }

  /** Those of some options that chance takes, each told by its probability, its name and what draws its value. */
  some(rows) {
    const taken = rows.filter(([probability]) => this.draw.is(probability));
    return Object.fromEntries(taken.map(([, name, value]) => [name, value(this.draw)]));
  }

  /** A length of whole numbers from low to high, or with a fraction here and there. */
  length(low, high) {
    const { from, is, of } = this.draw;
    return from(low, high) + (is(this.how.fractions) ? of([0.25, 0.5, 0.125, 0.2]) : 0);
  }

  graph() {
    const root = { id: 'root', ...this.#level(1, this.how.nodes), edges: [] };
    this.#enter(root);
    const all = [...this.parents.keys()];
    all.filter((node) => this.draw.is(node.children ? this.how.groupPorts : this.how.ports)).forEach((node) => portsFor(this, node));
    if (this.draw.is(this.how.groupPorts * this.how.inward)) {
      portsFor(this, root);
    }
    [root, ...all].filter(() => this.draw.is(this.how.labels * 0.7)).forEach((node) => nodeLabelsFor(this, node, node === root));
    addEdges(this, root);
    // Edges of the root may be declared at any node.
    if (!this.how.hasRootId && !JSON.stringify({ ...root, id: undefined }).includes('"root"')) {
      delete root.id;
    }
    return root;
  }

  #enter(level) {
    for (const child of level.children ?? []) {
      this.parents.set(child, level);
      this.#enter(child);
    }
  }

  /** What a node with this many nodes in it has. */
  #level(depth, budget) {
    const { is, from } = this.draw;
    const level = { layoutOptions: {}, children: [] };
    for (let left = budget; left > 0; ) {
      const share = depth < this.how.depth && left > 1 && is(this.how.nesting) ? from(1, Math.ceil(left / 2)) : 0;
      level.children.push(this.#node(depth, share));
      left -= 1 + share;
    }
    this.#askOf(level, depth === 1);
    return level;
  }

  #node(depth, share) {
    const { is } = this.draw;
    const node = { id: this.id('n') };
    if (share > 0) {
      Object.assign(node, this.#level(depth + 1, share));
    } else {
      Object.assign(node, is(0.95) && { width: this.length(10, 110) }, is(0.95) && { height: this.length(10, 70) });
    }
    const sizes = is(0.8) ? this.how.sizes : this.draw.of(SIZES);
    node.layoutOptions = {
      ...node.layoutOptions,
      ...this.options({
        'nodeSize.constraints': is(0.7) ? sizes : undefined,
        'nodeSize.minimum': is(0.3) ? `(${this.draw.from(0, 120)}, ${this.draw.from(0, 80)})` : undefined,
      }),
    };
    return node;
  }

  /** Asks for a layout of a level, and for the layers and places of its children. */
  #askOf(level, isRoot) {
    const { is, of } = this.draw;
    const { how } = this;
    const isOfBoxes = !isRoot && is(how.boxes);
    const hasPartitions = how.partitions && is(0.6);
    const order = how.kept && is(0.7) ? of(ORDERS) : {};
    const own = {
      ...this.some(LEVEL_OPTIONS.map(([probability, name, value]) => [probability * how.options * 2, name, value])),
      direction: isRoot || is(0.5) ? how.direction : how.mixed ? of([...DIRECTIONS, 'UNDEFINED']) : undefined,
      edgeRouting: isRoot || is(0.4) ? how.routing : how.mixed ? of(['ORTHOGONAL', 'POLYLINE', 'SPLINES']) : undefined,
      algorithm: isOfBoxes ? 'box' : isRoot && is(0.2) ? 'layered' : undefined,
      hierarchyHandling: this.#handling(isRoot),
      'layered.mergeEdges': how.merged && is(0.7) ? true : undefined,
      'partitioning.activate': hasPartitions ? of([true, 'true']) : undefined,
      'json.shapeCoords': how.coordinates && is(0.4) ? of(['ROOT', 'ROOT', 'PARENT', 'INHERIT']) : undefined,
      'json.edgeCoords': how.coordinates && is(0.4) ? of(['ROOT', 'PARENT', 'CONTAINER', 'INHERIT']) : undefined,
      ...order,
    };
    level.layoutOptions = this.options(own);
    level.children.forEach((child) => this.#askOfChild(child, hasPartitions));
    const isKept = Object.keys(order).length > 0;
    if (isKept || is(0.1)) {
      this.#placeChildren(level, order);
    }
  }

  #handling(isRoot) {
    const { is, of } = this.draw;
    if (isRoot) {
      return [undefined, 'INCLUDE_CHILDREN', 'INHERIT'][this.how.included];
    }
    return is(this.how.closed) ? 'SEPARATE_CHILDREN' : is(0.1) ? of(['INCLUDE_CHILDREN', 'INHERIT']) : undefined;
  }

  #askOfChild(child, hasPartitions) {
    const { below, is, of } = this.draw;
    const asked = this.options({
      'layered.layering.layerConstraint': this.how.layers && is(0.25) ? of(CONSTRAINTS) : undefined,
      'partitioning.partition': hasPartitions && is(0.85) ? below(3) : undefined,
    });
    child.layoutOptions = { ...child.layoutOptions, ...asked };
  }

  /** Gives most children the places of an earlier drawing, some of them one by a number. */
  #placeChildren(level, order) {
    const { below, is } = this.draw;
    const hasPositions = order['layered.order'] === 'KEPT' ? is(0.5) : is(0.2);
    for (const child of level.children.filter(() => is(0.8))) {
      Object.assign(child, { x: this.length(0, 500), y: this.length(0, 500) });
      if (hasPositions && is(0.6)) {
        child.layoutOptions = { ...child.layoutOptions, ...this.options({ 'layered.position': below(12) - 3 }) };
      }
    }
  }
}

/**
 * A document for a seed.
 * @param {number} seed
 * @param {object} [asked] what else is drawn at random, by `habitsOf`; with `hasAcross` false, edges across borders are left out
 */
const everything = (seed, asked = {}) => new Maker(seed, asked).graph();

module.exports = { everything };
