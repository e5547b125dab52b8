'use strict';
// Children in the layers and partitions that are asked for, in drawings that are judged by what shares no code with what
// draws them.

const assert = require('node:assert/strict');
const test = require('node:test');
const ELK = require('../src/elk');
const { acrossBorders } = require('./helpers/across');
const { withLayers } = require('./helpers/bound');
const { curvesJudged } = require('./helpers/curve-faults');
const { judged } = require('./helpers/drawing-faults');
const { labelFaults, labelled } = require('./helpers/labelled');
const { layersJudged } = require('./helpers/layer-faults');
const { quietLayout: layout } = require('./helpers/layout');
const { PROGRAM, WITH_PROGRAM } = require('./helpers/program');

// ELK_SEEDS documents of each kind.
const SEEDS = Number(process.env.ELK_SEEDS ?? 12);

const CONSTRAINT = 'elk.layered.layering.layerConstraint';
const PARTITION = 'elk.partitioning.partition';
const PARTITIONED = { 'elk.partitioning.activate': true };

const leaf = (id, layoutOptions) => ({ id, width: 40, height: 30, ...(layoutOptions && { layoutOptions }) });
const bound = (id, constraint) => leaf(id, { [CONSTRAINT]: constraint });
const edge = (id, more) => ({ id, sources: [id[0]], targets: [id[1]], ...more });

/** The columns of a level from the first to the last, each with the ids of its children in the order of the document. */
function columnsOf({ children, layoutOptions = {} }) {
  const direction = layoutOptions['elk.direction'] ?? 'RIGHT';
  const placeOf = ({ x, y }) => ({ RIGHT: x, LEFT: -x, DOWN: y, UP: -y })[direction];
  const places = [...new Set(children.map(placeOf))].sort((one, other) => one - other);
  return places.map((place) => children.filter((child) => placeOf(child) === place).map(({ id }) => id).join('')).join(' ');
}

// Children, edges, and the columns in which the children stand.
const CASES = {
  'one that is FIRST stands beside the first of the others': [['f:FIRST', 'a', 'b', 'c'], ['ab', 'bc', 'fc'], 'fa b c'],
  'one that is LAST stands beside the last of the others': [['l:LAST', 'a', 'b', 'c'], ['ab', 'bc', 'al'], 'a b lc'],
  'separate ones have layers of their own': [['f:FIRST_SEPARATE', 'l:LAST_SEPARATE', 'a', 'b', 'c'], ['ab', 'cb', 'fb', 'al'], 'f ac b l'],
  'separate ones without edges too, in a level that is laid out as a whole': [['f:FIRST_SEPARATE', 'l:LAST_SEPARATE', 'a', 'b'], ['ab'], 'f a b l', 'whole'],
  'edges against constraints are turned': [['f:FIRST', 'a', 'b', 'l:LAST'], ['ab', 'bf', 'la'], 'fa bl'],
  'all four at once': [['a', 'f:FIRST', 'F:FIRST_SEPARATE', 'l:LAST', 'L:LAST_SEPARATE'], ['Fa', 'fa', 'al', 'aL', 'lL'], 'F f a l L'],
  'two of one kind that an edge joins stand one behind the other': [['f:FIRST', 'g:FIRST', 'a'], ['fg', 'ga', 'fa'], 'f g a'],
  'a constraint counts before a partition': [['a:0', 'b:1', 'f:FIRST'], ['ab', 'bf'], 'af b', 'partitions'],
  'partitions stand one behind the other': [['a:1', 'b:0', 'c:2', 'd:0'], ['ab', 'cb', 'bd', 'ac'], 'b d a c', 'partitions'],
  'partitions hold for all parts of a level': [['a:1', 'b:1', 'c:0', 'd:0'], ['ab', 'cd'], 'c d a b', 'partitions'],
  'partitions hold without edges': [['a:7', 'b:-3', 'c:7'], [], 'b ac', 'partitions'],
  'a child without a partition stands where its edges lead it': [['a:1', 'b:0', 'u'], ['au', 'ub'], 'b a u', 'partitions'],
  'partitions that are not activated have no effect': [['a:1', 'b:0'], ['ab'], 'a b'],
};

const OPTIONS = { whole: { 'elk.separateConnectedComponents': false }, partitions: PARTITIONED };

function childOf(text) {
  const [id, asked] = text.split(':');
  return Number.isNaN(Number(asked)) ? (asked ? bound(id, asked) : leaf(id)) : leaf(id, { [PARTITION]: asked });
}

for (const [name, [children, edges, expected, how]] of Object.entries(CASES)) {
  test(`layers that are asked for: ${name}`, WITH_PROGRAM, async () => {
    for (const direction of ['RIGHT', 'LEFT', 'DOWN', 'UP']) {
      const layoutOptions = { 'elk.direction': direction, ...OPTIONS[how] };
      const graph = { id: 'r', layoutOptions, children: children.map(childOf), edges: edges.map((id) => edge(id)) };
      const before = JSON.stringify(graph);
      const placed = await layout(graph);
      assert.equal(columnsOf(placed), expected, direction);
      assert.deepEqual(judged(placed, graph).faults, [], direction);
      assert.equal(JSON.stringify(graph), before);
      assert.deepEqual([placed.children, placed.edges].map((list) => list.length), [children.length, edges.length]);
      assert.equal(placed.children.some(({ ports }) => ports), false);
    }
  });
}

test('a turned edge leads from its source to its target, and the level has no certificate', WITH_PROGRAM, async () => {
  const inner = { id: 'g', children: [leaf('u'), leaf('v')], edges: [edge('uv')] };
  const graph = { id: 'r', children: [bound('f', 'FIRST'), leaf('a'), inner], edges: [edge('af'), edge('ag')] };
  const placed = await layout(graph);
  const [{ sections: [{ startPoint, endPoint }] }] = placed.edges;
  const [f, a, g] = placed.children;
  assert.deepEqual([startPoint.x, endPoint.x], [a.x, f.x + f.width]);
  assert.deepEqual([placed.layering, g.layering.span], [undefined, 1]);
});

test('each part has layers of its own, unless the level is laid out as a whole', WITH_PROGRAM, async () => {
  const children = ['a', 'b', 'c', 'd'].map((id) => leaf(id)).concat(bound('f', 'FIRST_SEPARATE'));
  const edges = [edge('ab'), edge('cd'), edge('df')];
  const xOf = async (layoutOptions) => (await layout({ id: 'r', layoutOptions, children, edges })).children.map(({ x }) => x);
  const [a, , c, , f] = await xOf({});
  assert.ok(f < c && f === a, 'the separate one stands before its own part');
  const [first, , third, , separate] = await xOf(OPTIONS.whole);
  assert.ok(separate < first && first === third);
});

test('layers hold for the groups at whose borders edges cross, and within them', WITH_PROGRAM, async () => {
  const group = (id, children, options) => ({ id, children, layoutOptions: options });
  const graph = {
    id: 'r',
    children: [leaf('x'), group('g', [leaf('a'), bound('b', 'FIRST'), leaf('c')], { [CONSTRAINT]: 'LAST' }), leaf('y')],
    edges: [edge('ax'), edge('ab'), edge('bc'), edge('xc'), edge('xy')],
  };
  const placed = await layout(graph);
  assert.deepEqual(judged(placed, graph).faults, []);
  assert.deepEqual(layersJudged(placed).faults, []);
  const [x, g, y] = placed.children;
  const [a, b, c] = g.children;
  assert.ok(g.x > x.x && g.x + g.width > y.x && b.x <= a.x && b.x < c.x);
});

test('a level of boxes has no layers, and what is no constraint or no partition has no effect', WITH_PROGRAM, async () => {
  const boxes = await layout({ id: 'r', layoutOptions: { 'elk.algorithm': 'box' }, children: [leaf('a'), bound('f', 'FIRST')] });
  assert.deepEqual(boxes.children.map(({ x, y }) => [x, y]), [[12, 12], [12, 62]]);
  const told = [];
  const children = [leaf('a', { [PARTITION]: 'x' }), bound('b', 'FIRTS')];
  const graph = { id: 'r', layoutOptions: PARTITIONED, children, edges: [edge('ab')] };
  const placed = await layout(graph, { onWarning: ({ kind, near }) => told.push([kind, near]) });
  assert.equal(columnsOf(placed), 'a b');
  assert.deepEqual(told, [['unknownValue', 'FIRST']]);
});

test('a call that is ended before its first answer fails', WITH_PROGRAM, async () => {
  const elk = new ELK({ program: PROGRAM });
  const waiting = elk.layout({ id: 'r', children: [bound('a', 'FIRST'), leaf('b')], edges: [edge('ab')] });
  elk.terminateWorker();
  await assert.rejects(waiting, { name: 'ProgramError' });
});

// Each with how many documents are drawn for one of the others, which take longer.
const KINDS = [
  ['flat', 10, { depth: 1, across: 0 }],
  ['flat with labels and edges of two targets', 10, { depth: 1, across: 0, labels: 0.3, hyper: 0.1 }],
  ['with edges across borders', 1, { nodes: 25 }],
  ['with ports of groups, inward edges and mixed directions', 1, { nodes: 20, pins: true, inward: true, mixed: true }],
  ['with all of it at once', 1, { nodes: 15, labels: 0.4, hyper: 0.1, pins: true, inward: true, mixed: true }],
];

for (const [kind, times, asked] of KINDS) {
  test(`children of random documents ${kind} stand in the layers that they ask for`, WITH_PROGRAM, async () => {
    let sum = 0;
    for (let seed = 50000; seed < 50000 + SEEDS * times; seed += 1) {
      const graph = withLayers(acrossBorders(seed, asked), seed);
      const routing = [undefined, 'POLYLINE', 'SPLINES'][seed % 3];
      const placed = await layout(graph, { call: { layoutOptions: routing ? { 'elk.edgeRouting': routing } : {} } });
      const { faults, bound: count } = layersJudged(placed);
      const drawing = routing ? curvesJudged(placed) : judged(placed, graph);
      assert.deepEqual([...faults, ...drawing.faults], [], `document ${seed}`);
      sum += count;
    }
    assert.ok(sum > SEEDS, `${sum} bound children`);
  });
}

test('labels of all kinds keep clear in levels that ask for layers', WITH_PROGRAM, async () => {
  for (let seed = 1; seed <= SEEDS * 5; seed += 1) {
    const placed = await layout(withLayers(labelled(seed), seed));
    assert.deepEqual([...labelFaults(placed), ...layersJudged(placed).faults], [], `document ${seed}`);
  }
});

// Each with what it does to a drawing of a, which is FIRST, b of partition 0 and c of partition 1, and what is then found.
const SPOILED = [
  ['what is FIRST moves behind', ({ children: [a, , c] }) => Object.assign(a, { x: c.x + 100 }), /a: is FIRST/],
  ['a partition moves beside another', ({ children: [, b, c] }) => Object.assign(c, { x: b.x }), /c: in partition 1/],
  ['one before another in the document moves below it', ({ children: [a, b] }) => Object.assign(a, { y: b.y + 40, x: b.x }), /b: before a/],
];

test('children in wrong layers and orders are found out', WITH_PROGRAM, async () => {
  const children = [bound('a', 'FIRST'), leaf('b', { [PARTITION]: 0 }), leaf('c', { [PARTITION]: 1 })];
  const graph = { id: 'r', layoutOptions: { ...PARTITIONED, 'elk.layered.order': 'DOCUMENT' }, children, edges: [edge('ab'), edge('bc')] };
  const placed = await layout(graph);
  assert.deepEqual(layersJudged(placed).faults, []);
  for (const [name, spoil, found] of SPOILED) {
    const spoiled = structuredClone(placed);
    spoil(spoiled);
    assert.match(layersJudged(spoiled).faults.join(), found, name);
  }
});
