'use strict';
// A large document, made from a seed so that it is the same each time.

const SEED = 1;

/** Numbers that look like chance, from 0 and below 1. */
function chanceFrom(seed) {
  let state = seed;
  return () => {
    state = (state * 48271) % 2147483647;
    return state / 2147483647;
  };
}

// So far back an edge comes at most, in nodes.
const REACH = 30;

/** A document of that many nodes, each with an edge from one not far before it. */
function largeDocument(nodes) {
  const chance = chanceFrom(SEED);
  const idOf = (at) => `n${at}`;
  const sourceOf = (at) => at - 1 - Math.floor(chance() * Math.min(at, REACH));
  const edgeTo = (at) => ({ id: `e${at}`, sources: [idOf(sourceOf(at))], targets: [idOf(at)] });
  const all = Array.from({ length: nodes }, (_, at) => at);
  return {
    id: 'large',
    children: all.map((at) => ({ id: idOf(at), width: 40 + 10 * Math.floor(chance() * 4), height: 30 })),
    edges: all.slice(1).map(edgeTo),
  };
}

/** Its text, with a line for each element. */
function largeText(nodes) {
  const { id, children, edges } = largeDocument(nodes);
  const lines = (list) => list.map((it) => `    ${JSON.stringify(it)}`).join(',\n');
  return `{\n  "id": "${id}",\n  "children": [\n${lines(children)}\n  ],\n  "edges": [\n${lines(edges)}\n  ]\n}\n`;
}

module.exports = { largeText };
