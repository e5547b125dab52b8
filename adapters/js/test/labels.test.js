'use strict';

const assert = require('node:assert/strict');
const test = require('node:test');
const ELK = require('../src/elk');
const { withLayers } = require('./helpers/bound');
const { chance } = require('./helpers/chance');
const { labelFaults, labelled } = require('./helpers/labelled');
const { PROGRAM, replyOf, run, WITH_PROGRAM } = require('./helpers/program');

// The gate tries a part of the documents; LABELS=all tries all of them.
const SEEDS = process.env.LABELS === 'all' ? 900 : 120;
const JUDGED = process.env.LABELS === 'all' ? 900 : 30;

const seeds = (count) => Array.from({ length: count }, (_, at) => at + 1);

/** What stands in a document besides its drawing. */
const undrawn = (graph) =>
  JSON.parse(
    JSON.stringify(graph, (key, value) =>
      ['x', 'y', 'width', 'height', 'layering', 'sections', 'container', 'junctionPoints'].includes(key) ? undefined : value,
    ),
  );

test('no label of a document drawn by chance meets a node, a port, a line or another label', WITH_PROGRAM, async () => {
  const elk = new ELK({ program: PROGRAM });
  for (const seed of seeds(SEEDS)) {
    const graph = labelled(seed);
    const before = JSON.stringify(graph);
    const placed = await elk.layout(graph);
    assert.deepEqual(labelFaults(placed), [], `document ${seed}`);
    assert.equal(JSON.stringify(graph), before, `document ${seed} is written into`);
    assert.deepEqual(undrawn(placed), undrawn(graph), `document ${seed} comes back otherwise`);
  }
  elk.terminateWorker();
});

test('what the engine is asked for these documents it answers rightly', WITH_PROGRAM, () => {
  for (const seed of seeds(JUDGED)) {
    const { document } = replyOf({ graph: labelled(seed), give: ['document'] });
    const { stdout, stderr } = run(['layout'], JSON.stringify(document));
    assert.equal(stderr, '', `document ${seed}`);
    assert.equal(run(['check'], stdout).stdout, 'yes\n', `document ${seed}`);
  }
});

/** All ways to the members of a value. */
const waysOf = (value) =>
  typeof value === 'object' && value !== null
    ? Object.keys(value).flatMap((key) => [[key], ...waysOf(value[key]).map((way) => [key, ...way])])
    : [];

/** Writes something else in the place of a member that is drawn by chance. */
function damage(graph, draw) {
  const way = draw.of(waysOf(graph));
  const holder = way.slice(0, -1).reduce((value, key) => value[key], graph);
  holder[way.at(-1)] = draw.of([undefined, null, 'x', -3, 1.5, 1e9, [], {}, true]);
  return graph;
}

test('a damaged document is drawn or refused', WITH_PROGRAM, async () => {
  const elk = new ELK({ program: PROGRAM, onWarning: () => {} });
  for (const seed of seeds(SEEDS)) {
    const graph = damage(damage(withLayers(labelled(seed), seed), chance(seed)), chance(-seed));
    await elk.layout(graph).catch((error) => assert.ok(error instanceof ELK.Refusal, `document ${seed}: ${error.stack}`));
  }
  elk.terminateWorker();
});

const SIZES = [
  ['a minimum of its own', { constraints: 'MINIMUM_SIZE', minimum: '(60, 40)' }, {}, [60, 40]],
  ['the least by default', { constraints: ['MINIMUM_SIZE'] }, {}, [20, 20]],
  ['a minimum below the given size', { constraints: '[MINIMUM_SIZE]', minimum: '(5,5)' }, { width: 9, height: 4 }, [9, 5]],
  ['ports', { constraints: 'PORTS' }, { ports: [1, 2, 3].map((id) => ({ id, width: 8, height: 8 })) }, [0, 72]],
  ['labels', { constraints: 'NODE_LABELS', placement: 'INSIDE H_LEFT V_TOP' }, { labels: [{ width: 50, height: 10 }] }, [60, 20]],
  ['labels, without being asked to', { placement: 'INSIDE H_LEFT V_TOP' }, { labels: [{ width: 50, height: 10 }] }, [0, 0]],
  [
    'labels of its ports',
    { constraints: 'PORTS PORT_LABELS', ports: 'INSIDE' },
    { ports: [{ id: 'p', width: 4, height: 4, labels: [{ width: 30, height: 12 }] }] },
    [32, 24],
  ],
];

test('a node grows for what stands in it, from its given size on', WITH_PROGRAM, async () => {
  const elk = new ELK({ program: PROGRAM });
  for (const [name, { constraints, minimum, placement, ports }, node, expected] of SIZES) {
    const layoutOptions = {
      ...(constraints && { 'elk.nodeSize.constraints': constraints }),
      ...(minimum && { 'elk.nodeSize.minimum': minimum }),
      ...(placement && { 'elk.nodeLabels.placement': placement }),
      ...(ports && { 'elk.portLabels.placement': ports }),
    };
    const { children } = await elk.layout({ id: 'r', children: [{ id: 'a', ...node, layoutOptions }] });
    assert.deepEqual([children[0].width ?? 0, children[0].height ?? 0], expected, name);
  }
  elk.terminateWorker();
});

test('labels of several loops of a node stand apart, and all its loops are close to it', WITH_PROGRAM, async () => {
  const elk = new ELK({ program: PROGRAM });
  const loop = (id, text) => ({ id, source: 'a', target: 'a', ...(text && { labels: [{ text }] }) });
  for (const direction of ['RIGHT', 'DOWN']) {
    const edges = [loop(1, 'first'), loop(2, 'the second'), loop(3), { id: 4, source: 'a', target: 'b' }];
    const children = [{ id: 'a', width: 60, height: 60 }, { id: 'b', width: 20, height: 20 }];
    const placed = await elk.layout({ id: 'r', layoutOptions: { direction }, children, edges });
    assert.deepEqual(labelFaults(placed), [], direction);
    const [axis, size] = direction === 'RIGHT' ? ['x', 'width'] : ['y', 'height'];
    const [a] = placed.children;
    const reaches = placed.edges.slice(0, 3).map(({ sections: [{ bendPoints }] }) => bendPoints[0][axis] - a[axis] - a[size]);
    assert.deepEqual(reaches, [10, 10, 10], direction);
  }
  elk.terminateWorker();
});

test('a label on a long line stands in its middle', WITH_PROGRAM, async () => {
  const elk = new ELK({ program: PROGRAM });
  const ids = ['a', 'b', 'c', 'd', 'e'];
  const children = ids.map((id) => ({ id, width: 60, height: 40 }));
  const steps = ids.slice(1).map((id, at) => ({ id, source: ids[at], target: id }));
  for (const [direction, axis, size] of [['RIGHT', 'x', 'width'], ['UP', 'y', 'height']]) {
    const long = { id: 'long', source: 'a', target: 'e', labels: [{ text: 'from end to end' }] };
    const placed = await elk.layout({ id: 'r', layoutOptions: { direction }, children, edges: [...steps, long] });
    const { labels: [label], sections: [{ bendPoints: [, first, last] }] } = placed.edges.at(-1);
    const middle = label[axis] + label[size] / 2;
    assert.ok(Math.abs(middle - (first[axis] + last[axis]) / 2) <= 1, direction);
  }
  elk.terminateWorker();
});

const chain = (count, labels) => ({
  id: 'r',
  children: Array.from({ length: count }, (_, id) => ({ id, width: 10, height: 10 })),
  edges: Array.from({ length: count - 1 }, (_, id) => ({ id, sources: [id], targets: [id + 1], labels })),
});

test('labels in mid-edge count towards the limits, and a refusal says so', WITH_PROGRAM, async () => {
  const elk = new ELK({ program: PROGRAM });
  const labels = [{ text: 'x', width: 9, height: 9 }];
  await assert.rejects(elk.layout(chain(1200, labels)), {
    name: 'TooMany',
    found: 2400,
    message: /2,400 nodes are sent, including those for labels/,
  });
  const placed = await elk.layout(chain(900, labels));
  assert.ok(placed.edges.every((edge) => Number.isFinite(edge.labels[0].x) && edge.sections.length === 1));
  assert.equal((await elk.layout(chain(1200, [{ text: '' }]))).edges.length, 1199);
  elk.terminateWorker();
});

test('a level without labels in mid-edge keeps its certificate, cycles or not', WITH_PROGRAM, async () => {
  const elk = new ELK({ program: PROGRAM });
  const layoutOptions = { 'elk.nodeLabels.placement': 'INSIDE V_CENTER H_CENTER' };
  const children = ['a', 'b', 'c', 'd'].map((id) => ({ id, width: 60, height: 40, labels: [{ text: id }], layoutOptions }));
  const ends = [['a', 'b'], ['b', 'c'], ['c', 'a'], ['c', 'd'], ['d', 'b'], ['d', 'd']];
  const edges = ends.map(([source, target], id) => ({ id, source, target }));
  const placed = await elk.layout({ id: 'r', children, edges });
  elk.terminateWorker();
  assert.ok(placed.layering.reversed.length > 0);
  const { stdout } = run(['check'], JSON.stringify(placed, (key, value) => (key === 'labels' ? undefined : value)));
  assert.equal(stdout, 'yes\n');
  assert.deepEqual(placed.children[0].labels.map(({ text, x, height }) => [text, x > 20, height]), [['a', true, 15]]);
});

test('call options count for labels, and labels that are not to be placed come back with 0', WITH_PROGRAM, async () => {
  const elk = new ELK({ program: PROGRAM });
  const labels = [{ text: 'one\nlonger line' }];
  const graph = {
    id: 'r',
    children: [
      { id: 'a', labels, ports: [{ id: 'p', labels }] },
      { id: 'b', width: 30, height: 30 },
    ],
    edges: [{ id: 'e', sources: ['p'], targets: ['b'], labels }],
  };
  const layoutOptions = {
    'portLabels.placement': 'FIXED',
    'nodeSize.constraints': '[NODE_LABELS, MINIMUM_SIZE]',
    'edgeLabels.placement': 'TAIL',
    'elk.edgeLabels.inline': 'true',
  };
  const { children, edges } = await elk.layout(graph, { layoutOptions });
  elk.terminateWorker();
  const [a] = children;
  const unplaced = [{ ...labels[0], x: 0, y: 0, width: 0, height: 0 }];
  assert.deepEqual([a.labels, a.ports[0].labels], [unplaced, unplaced]);
  assert.deepEqual([a.width, a.height], [20, 20]);
  const [{ x, height }] = edges[0].labels;
  assert.ok(x > a.x + a.width && x < a.x + a.width + 5);
  assert.equal(height, 30);
});

const box = (id, more) => ({ id, width: 30, height: 30, ...more });

const step = (id, source, target, text) => ({ id, sources: [source], targets: [target], ...(text && { labels: [{ text }] }) });

test('where a level keeps the order of the document, labels stand where their edges cross least', WITH_PROGRAM, async () => {
  const elk = new ELK({ program: PROGRAM });
  const children = ['t', 's', 'c', 'e', 'b'].map((id) => box(id));
  const edges = [step('1', 's', 'b', 'one'), step('2', 't', 'c'), step('3', 'c', 'e')];
  for (const layoutOptions of [
    { 'elk.layered.order': 'DOCUMENT' },
    { 'elk.layered.crossingMinimization.forceNodeModelOrder': true },
    { 'elk.layered.crossingMinimization.strategy': 'NONE' },
  ]) {
    const placed = await elk.layout({ id: 'r', layoutOptions, children, edges });
    assert.deepEqual(placed.children.map(({ id }) => id), ['t', 's', 'c', 'e', 'b']);
    const [t, s, c, e, b] = placed.children.map(({ y }) => y);
    assert.ok(t < s && e < b, `${t} ${s} ${e} ${b}`);
    assert.ok(c < placed.edges[0].labels[0].y, 'the label stands below the node, as its edge does');
    assert.deepEqual(labelFaults(placed), []);
  }
  elk.terminateWorker();
});

test('a fault beside such a label is reported where it stands in the graph', WITH_PROGRAM, async () => {
  const elk = new ELK({ program: PROGRAM });
  const level = { id: 'in', layoutOptions: { 'elk.layered.order': 'DOCUMENT' }, edges: [step('e', 'a', 'b', 'one')] };
  const inner = (more, edges = []) => ({
    id: 'r',
    children: [{ ...level, children: [box('a'), box('b'), more], edges: [...level.edges, ...edges] }],
  });
  const ends = [step('f', 'c', 'nobody')];
  for (const [graph, rule, path, words] of [
    [inner(box('b')), 7, 'children[0].children[2].id', /as children\[0\]\.children\[1\]\.id is/],
    [inner(box('c', { layoutOptions: { 'elk.portConstraints': 'ODD' } })), 11, 'children[0].children[2].layoutOptions["elk.portConstraints"]', /"ODD"/],
    [inner(box('c'), ends), 8, 'children[0].edges[1].targets[0]', /"nobody"/],
    [inner(box('c', { ports: [{ id: 'p', width: -2 }] })), 4, 'children[0].children[2].ports[0].width', /is -2/],
  ]) {
    await assert.rejects(elk.layout(graph), (error) => {
      assert.deepEqual([error.rule, error.path], [rule, path]);
      assert.match(error.message, words);
      return true;
    });
  }
  elk.terminateWorker();
});

test('a size that is none is refused, also where a node grows for its labels', WITH_PROGRAM, async () => {
  const elk = new ELK({ program: PROGRAM });
  const labels = [{ text: 'inside', width: 40, height: 12 }];
  const layoutOptions = { 'nodeLabels.placement': 'INSIDE V_CENTER H_CENTER' };
  for (const [width, name] of [[-1, 'OutOfRange'], ['12', 'BadShape'], [2 ** 21, 'OutOfRange']]) {
    const graph = { id: 'root', children: [{ id: 'a', width, height: 10, labels, layoutOptions }] };
    await assert.rejects(elk.layout(graph), (error) => {
      assert.match(error.message, new RegExp(`children\\[0\\]\\.width.*${name}`), `${width}`);
      return true;
    });
  }
  elk.terminateWorker();
});
