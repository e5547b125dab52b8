'use strict';
// Levels that keep an earlier drawing, or the order of the document, send their children with positions.

const assert = require('node:assert/strict');
const test = require('node:test');
const ELK = require('../src/elk');
const { chance } = require('./helpers/chance');
const { PROGRAM, replyOf, WITH_PROGRAM } = require('./helpers/program');

const POSITION = 'layered.position';
const FULL = 'org.eclipse.elk.';

/** What is sent for a graph. */
const sent = (graph, options = {}) => replyOf({ graph, options, give: ['document'] }).document;

/** The position that each child is sent with. */
const positionsIn = ({ children }) =>
  children.map(({ layoutOptions = {} }) => layoutOptions[FULL + POSITION] ?? layoutOptions[POSITION]);

const orderIn = ({ layoutOptions }) => layoutOptions[`${FULL}layered.order`] ?? layoutOptions['elk.layered.order'];

const KEPT = { 'elk.interactive': true };

// Their middles stand at 10, 70 and 35 from the left, and at 60, 5 and 27.5 from above.
const PLACED = [
  { id: 'a', x: 0, y: 50, width: 20, height: 20 },
  { id: 'new' },
  { id: 'b', x: 60, y: 0, width: 20, height: 10 },
  { id: 'c', x: 30, y: 0.5, width: 10, height: 54 },
  { id: 'half', x: 5 },
];

test('a level that keeps an earlier drawing sends the ranks of its children across its direction', WITH_PROGRAM, () => {
  for (const [direction, expected] of [
    ['RIGHT', [2, undefined, 0, 1, undefined]],
    ['LEFT', [2, undefined, 0, 1, undefined]],
    ['DOWN', [0, undefined, 2, 1, undefined]],
    ['UP', [0, undefined, 2, 1, undefined]],
  ]) {
    const graph = { id: 'r', layoutOptions: { ...KEPT, 'elk.direction': direction }, children: PLACED };
    assert.deepEqual(positionsIn(sent(graph)), expected, direction);
    assert.deepEqual(positionsIn(sent({ id: 'r', children: PLACED }, graph.layoutOptions)), expected, direction);
  }
});

test('a position that a child has stays, and a level that keeps nothing sends none', WITH_PROGRAM, () => {
  const [a, ...others] = PLACED;
  const children = [{ ...a, properties: { [POSITION]: -5 } }, ...others];
  const own = [-5, undefined, undefined, undefined, undefined];
  for (const [layoutOptions, expected] of [
    [KEPT, [-5, undefined, 0, 1, undefined]],
    [{ 'elk.layered.order': 'KEPT' }, own],
    [{ 'elk.interactive': false }, own],
    [{ ...KEPT, 'elk.layered.order': 'SWEPT' }, own],
  ]) {
    assert.deepEqual(positionsIn(sent({ id: 'r', layoutOptions, children })), expected, JSON.stringify(layoutOptions));
  }
  const asked = { id: 'r', layoutOptions: { 'elk.layered.order': 'KEPT' }, children: PLACED };
  assert.deepEqual(positionsIn(sent(asked)), [2, undefined, 0, 1, undefined]);
});

const step = (id, source, target, text) => ({ id, sources: [source], targets: [target], ...(text && { labels: [{ text }] }) });

test('with the order of the document, labels of edges get no position, and all other nodes do', WITH_PROGRAM, () => {
  const children = ['a', 'b', 'c'].map((id) => ({ id, width: 30, height: 30, layoutOptions: { [FULL + POSITION]: 7 } }));
  const edges = [step('1', 'a', 'b', 'one'), step('2', 'a', 'c', 'two')];
  const layoutOptions = { 'elk.layered.order': 'DOCUMENT' };
  const labelled = sent({ id: 'r', layoutOptions, children, edges });
  assert.equal(orderIn(labelled), 'KEPT');
  assert.deepEqual(positionsIn(labelled), [0, 1, 2, undefined, undefined]);
  const plain = sent({ id: 'r', layoutOptions, children, edges: [step('1', 'a', 'b')] });
  assert.equal(orderIn(plain), 'DOCUMENT');
});

const DIRECTIONS = ['RIGHT', 'LEFT', 'DOWN', 'UP'];

/** Nodes with edges among them; some of the edges have labels. */
function levelOf(draw, name, { isLabelled }) {
  const children = Array.from({ length: draw.from(6, 12) }, (_, at) => ({
    ...{ id: `${name}${at}`, width: draw.from(20, 60), height: draw.from(20, 60) },
  }));
  const edges = Array.from({ length: draw.from(8, 18) }, (_, at) => {
    const [from, to] = [draw.below(children.length - 1), draw.part()];
    const target = children[from + 1 + Math.floor(to * (children.length - from - 1))];
    return step(`${name}e${at}`, children[from].id, target.id, isLabelled && draw.is(0.3) ? `label ${at}` : undefined);
  });
  return { children, edges };
}

/** A graph with a level of its own in one of its nodes, which an edge enters in some. */
function graphOf(seed) {
  const draw = chance(seed);
  const how = { isLabelled: seed % 3 === 0 };
  const outer = levelOf(draw, 'o', how);
  const inner = levelOf(draw, 'i', how);
  const box = outer.children[draw.below(outer.children.length)];
  Object.assign(box, inner);
  if (seed % 2 === 0) {
    const other = outer.children.find((it) => it !== box);
    outer.edges.push(step('across', other.id, draw.of(inner.children).id));
  }
  // Only in one part layers are comparable.
  const whole = { 'elk.separateConnectedComponents': false };
  Object.assign(box, { layoutOptions: whole });
  return { draw, graph: { id: 'r', layoutOptions: { 'elk.direction': DIRECTIONS[seed % 4], ...whole }, ...outer } };
}

/** Adds a node to a level, with an edge from it and one to it. */
function addNode({ children, edges }, draw, name) {
  const ends = [draw.of(children).id, draw.of(children).id];
  children.splice(draw.below(children.length), 0, { id: name, width: 40, height: 40 });
  edges.push(step(`to ${name}`, ends[0], name), step(`from ${name}`, name, ends[1]));
}

/** What lies along a direction and across it of each child, by ids. */
function spansOf({ children }, direction) {
  const isFlat = direction === 'RIGHT' || direction === 'LEFT';
  return new Map(children.map(({ id, x, y, width, height }) => {
    const [along, across] = isFlat ? [{ from: x, to: x + width }, y + height / 2] : [{ from: y, to: y + height }, x + width / 2];
    return [id, { along, across }];
  }));
}

const meet = (one, other) => one.along.from < other.along.to && other.along.from < one.along.to;

/** The pairs of nodes that stand in one layer in two drawings of a level, and in another order. */
function* exchanged(before, after, direction) {
  const [old, now] = [before, after].map((level) => spansOf(level, direction));
  for (const [one, a] of old) {
    for (const [other, b] of old) {
      const [c, d] = [now.get(one), now.get(other)];
      if (one < other && meet(a, b) && meet(c, d) && a.across < b.across !== c.across < d.across) {
        yield `${one} ${other}`;
      }
    }
  }
}

test('a second layout of a placed graph with a node more keeps the order of each layer', WITH_PROGRAM, async () => {
  const elk = new ELK({ program: PROGRAM });
  const inner = ({ children }) => children.find((it) => it.children) ?? { children: [] };
  let kept = 0;
  for (let seed = 1; seed <= 60; seed += 1) {
    const { draw, graph } = graphOf(seed);
    const direction = graph.layoutOptions['elk.direction'];
    const first = await elk.layout(graph);
    const changed = structuredClone(first);
    addNode(changed, draw, 'new');
    addNode(inner(changed), draw, 'inner');
    const options = [KEPT, { 'elk.layered.crossingMinimization.semiInteractive': true }][seed % 2];
    const second = await elk.layout(changed, { layoutOptions: options });
    assert.deepEqual([...exchanged(first, second, direction)], [], `graph ${seed}`);
    // Levels within have the direction that they ask for.
    assert.deepEqual([...exchanged(inner(first), inner(second), 'RIGHT')], [], `graph ${seed}, within`);
    assert.equal(JSON.stringify(second).includes(POSITION), false);
    const third = await elk.layout(changed);
    kept += [...exchanged(first, third, direction)].length;
  }
  // Without the option some of them are exchanged.
  assert.ok(kept > 0);
  elk.terminateWorker();
});
