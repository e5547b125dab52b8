'use strict';
// What a placed document has lost or gained besides its drawing, and sizes that are less than asked for.

const { list, num, optionOf, wordOf } = require('./scene');

const DRAWN = ['x', 'y', 'width', 'height', 'layering', 'sections', 'container', 'junctionPoints', 'routing'];

const isObject = (value) => typeof value === 'object' && value !== null && !Array.isArray(value);

/** A document as text, with the members of each object in the order of their names, but for some of them. */
const textOf = (value, isLeftOut = () => false) =>
  JSON.stringify(value, (key, it) => {
    if (isLeftOut(key)) {
      return undefined;
    }
    return isObject(it) ? Object.fromEntries(Object.entries(it).sort(([one], [other]) => (one < other ? -1 : 1))) : it;
  });

/** What stands in a document besides its drawing, as text. */
const undrawn = (graph) => textOf(graph, (key) => DRAWN.includes(key));

/** All elements of a document: nodes with their parents, ports, edges and labels. */
function* elementsIn(node, isRoot = true) {
  yield { kind: 'node', element: node, isRoot };
  yield* list(node.labels).map((element) => ({ kind: 'label', element }));
  for (const port of list(node.ports)) {
    yield { kind: 'port', element: port };
    yield* list(port.labels).map((element) => ({ kind: 'label', element }));
  }
  for (const edge of list(node.edges)) {
    yield { kind: 'edge', element: edge };
    yield* list(edge.labels).map((element) => ({ kind: 'label', element }));
  }
  for (const child of list(node.children)) {
    yield* elementsIn(child, false);
  }
}

const MEASURES = ['x', 'y', 'width', 'height'];

/** The least size that a node asks for by MINIMUM_SIZE. */
function minimumOf(node) {
  const constraints = wordOf(node, 'nodeSize.constraints', '');
  const asked = String(optionOf(node, 'nodeSize.minimum', '')).match(/[\d.]+/g)?.map(Number) ?? [0, 0];
  const [width, height] = asked.some((it) => it > 0) ? asked : [20, 20];
  return constraints.includes('MINIMUM_SIZE') ? { width, height } : { width: 0, height: 0 };
}

/** What is wrong with the size of a placed node. */
function* nodeSizeFaults(given, placed) {
  const least = minimumOf(given);
  const isLeaf = list(given.children).length === 0;
  const mayGrow = wordOf(given, 'nodeSize.constraints', '') !== '';
  for (const name of ['width', 'height']) {
    const asked = isLeaf ? Math.ceil(num(given[name])) : 0;
    if (placed[name] < Math.max(asked, least[name])) {
      yield `${placed.id}: its ${name} is ${placed[name]}, and less than asked for`;
    } else if (isLeaf && !mayGrow && placed[name] !== asked) {
      yield `${placed.id}: its ${name} is ${placed[name]}, and more than asked for`;
    }
  }
}

/**
 * @param {object} graph a document
 * @param {object} placed the same with its drawing
 */
function* keptFaults(graph, placed) {
  if (undrawn(graph) !== undrawn(placed)) {
    yield 'something else than the drawing is not as it was';
    return;
  }
  const after = elementsIn(placed);
  for (const { kind, element, isRoot } of elementsIn(graph)) {
    const { element: now } = after.next().value;
    if (kind === 'edge') {
      continue;
    }
    if (!MEASURES.every((name) => Number.isFinite(now[name]))) {
      yield `${now.id ?? kind}: a ${kind} has no place or size`;
    } else if (kind === 'node') {
      yield* nodeSizeFaults(element, now);
      if (isRoot && (now.x !== 0 || now.y !== 0)) {
        yield 'the root does not stand at 0, 0';
      }
    }
    const names = ['width', 'height'];
    if (kind === 'port' && names.some((name) => now[name] !== Math.ceil(num(element[name])))) {
      yield `${now.id}: a port has another size`;
    }
    if (kind === 'label' && names.some((name) => element[name] > 0 && now[name] !== element[name])) {
      yield `a label has another size`;
    }
  }
}

module.exports = { keptFaults, textOf };
