'use strict';
// Edges of documents that are drawn at random: within levels, across borders, with several ends, and self-loops.

const { edgeLabelsFor } = require('./everything-labels');
const { wordOf } = require('./scene');

class Edges {
  constructor(maker, root) {
    this.maker = maker;
    this.root = root;
    this.parents = maker.parents;
    this.nodes = [...maker.parents.keys()];
    this.siblings = new Map();
    this.nodes.forEach((node) => this.siblings.set(this.parents.get(node), [...(this.siblings.get(this.parents.get(node)) ?? []), node]));
    this.owners = new Map([root, ...this.nodes].flatMap((node) => (node.ports ?? []).map(({ id }) => [id, node])));
  }

  holdersOf(node) {
    const holders = [];
    for (let it = this.parents.get(node); it; it = this.parents.get(it)) {
      holders.push(it);
    }
    return holders;
  }

  /** Whether no edge may cross the border of a node: the nearest of the nodes from it on that asks for something says so. */
  #isClosed(node) {
    const asked = [node, ...this.holdersOf(node)].map((it) => wordOf(it, 'hierarchyHandling', ''));
    return asked.find((it) => it === 'INCLUDE_CHILDREN' || it === 'SEPARATE_CHILDREN') === 'SEPARATE_CHILDREN';
  }

  /** The node in which two nodes are joined. One that holds the other is that node itself, and a loop is in the node around. */
  levelOf(source, target) {
    if (source === target) {
      return this.parents.get(source);
    }
    const around = [source, ...this.holdersOf(source)];
    return [target, ...this.holdersOf(target)].find((it) => around.includes(it));
  }

  isAcross(source, target) {
    const level = this.levelOf(source, target);
    return [source, target].some((end) => this.parents.get(end) !== level);
  }

  /** Whether two nodes may be joined. */
  isAllowed(source, target) {
    const level = this.levelOf(source, target);
    if (!level || /box$/i.test(wordOf(level, 'algorithm', ''))) {
      return false;
    }
    const borders = [source, target].flatMap((end) => this.holdersOf(end)).filter((it) => this.holdersOf(it).includes(level));
    return !this.isAcross(source, target) || ![level, ...borders].some((it) => this.#isClosed(it));
  }

  #targetOf(source) {
    const { is, of } = this.maker.draw;
    const { across, inward, loops } = this.maker.how;
    if (is(loops)) {
      return source;
    }
    if (is(across)) {
      const holds = (one, other) => this.holdersOf(other).includes(one);
      const isInward = is(inward);
      const others = [...this.nodes, ...(isInward ? [this.root] : [])].filter((it) => it !== source && this.isAcross(source, it));
      const wanted = others.filter((it) => (holds(it, source) || holds(source, it)) === isInward);
      return wanted.length > 0 ? of(wanted) : source;
    }
    const others = this.siblings.get(this.parents.get(source));
    return of(others);
  }

  endAt(node) {
    const { is, of } = this.maker.draw;
    return node.ports?.length > 0 && is(0.75) ? of(node.ports).id : node.id;
  }

  /** The ends of an edge; nothing where chance finds none that may be joined. */
  #ends() {
    const { is, of, from } = this.maker.draw;
    const source = of(this.nodes);
    const count = is(this.maker.how.hyper) ? from(2, 4) : 1;
    const targets = Array.from({ length: count }, () => this.#targetOf(source)).filter((it) => this.isAllowed(source, it));
    // An edge of several ends leads elsewhere.
    const others = targets.length > 1 ? targets.filter((it) => it !== source) : targets;
    if (others.length === 0) {
      return undefined;
    }
    const [stem, twigs] = [this.endAt(source), [...new Set(others.map((it) => this.endAt(it)))]];
    return is(0.5) ? { sources: [stem], targets: twigs } : { sources: twigs, targets: [stem] };
  }

  /** The ends in the primitive form. */
  #primitive({ sources: [source], targets: [target] }) {
    const told = (end, id) => {
      const owner = this.owners.get(id);
      return owner && this.maker.draw.is(0.6) ? { [end]: owner.id, [`${end}Port`]: id } : { [end]: id };
    };
    return { ...told('source', source), ...told('target', target) };
  }

  edge() {
    const { is, of, from } = this.maker.draw;
    const ends = this.#ends();
    if (!ends) {
      return undefined;
    }
    const isSingle = ends.sources.length + ends.targets.length === 2;
    const options = this.maker.options({ 'layered.priority.shortness': is(0.1) ? from(0, 9) : undefined });
    const edge = {
      id: this.maker.id('e'),
      ...(isSingle && is(0.2) ? this.#primitive(ends) : ends),
      ...(Object.keys(options).length > 0 && { layoutOptions: options }),
    };
    if (is(this.maker.how.labels * 0.6)) {
      edgeLabelsFor(this.maker, edge);
    }
    if (is(0.05)) {
      const [startPoint, endPoint] = [{ x: 1, y: 2 }, { x: 3, y: 4 }];
      Object.assign(edge, { sections: [{ id: 'old', startPoint, endPoint }], junctionPoints: [startPoint], container: of(this.nodes).id });
    }
    return { edge, ends };
  }

  /** Where an edge is declared: at the node in which it joins its ends, at the root, or anywhere. */
  placeOf({ sources, targets }) {
    const { is, of } = this.maker.draw;
    if (is(0.5)) {
      return this.root;
    }
    const [source, target] = [sources[0], targets[0]].map((id) => this.nodeOf(id));
    return is(0.8) ? this.levelOf(source, target) : of(this.nodes);
  }

  nodeOf(id) {
    return this.owners.get(id) ?? [this.root, ...this.nodes].find((node) => node.id === id);
  }
}

/** Adds edges to a graph. */
function addEdges(maker, root) {
  const edges = new Edges(maker, root);
  const { nodes, density, hasAcross = true } = maker.how;
  for (let left = Math.round(nodes * density); left > 0; left -= 1) {
    const made = edges.edge();
    const place = made && edges.placeOf(made.ends);
    const pairs = made && made.ends.sources.flatMap((one) => made.ends.targets.map((other) => [one, other].map((id) => edges.nodeOf(id))));
    if (made && (hasAcross || !pairs.some(([one, other]) => edges.isAcross(one, other)))) {
      place.edges = [...(place.edges ?? []), made.edge];
    }
  }
}

module.exports = { addEdges };
