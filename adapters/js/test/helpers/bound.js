'use strict';
// Documents whose children ask for layers, made of others at random.

const { elementsOf } = require('./placed');
const { chance } = require('./chance');

const CONSTRAINTS = ['FIRST', 'FIRST', 'LAST', 'LAST', 'FIRST_SEPARATE', 'LAST_SEPARATE'];

// What spreads seeds that lie next to one another.
const [SPREAD, START] = [2654435761, 777];

const asking = (element, options) => ({ ...element, layoutOptions: { ...element.layoutOptions, ...options } });

/** A document in which children ask for a layer here and there, and levels for partitions. */
function withLayers(document, seed) {
  const { below, is, of } = chance(seed * SPREAD + START);
  const bind = (level) => {
    const [hasConstraints, hasPartitions] = [is(0.5), is(0.3)];
    const bound = (child) =>
      asking(child, {
        ...(hasConstraints && is(0.3) && { 'elk.layered.layering.layerConstraint': of(CONSTRAINTS) }),
        ...(hasPartitions && is(0.9) && { 'elk.partitioning.partition': below(3) }),
      });
    const children = elementsOf(level.children).map((child) => bound(child.children ? bind(child) : child));
    return { ...asking(level, hasPartitions && { 'elk.partitioning.activate': true }), children };
  };
  return bind(document);
}

module.exports = { withLayers };
