'use strict';
// Forty-five uses of elkjs, each tried: the rows of a table of docs/EDITORS.md.

const assert = require('node:assert/strict');
const { readFileSync } = require('node:fs');
const path = require('node:path');
const test = require('node:test');
const ELK = require('../src/elk');
const { quietLayout: layout } = require('./helpers/layout');
const { PROGRAM, TOP, WITH_PROGRAM } = require('./helpers/program');

const box = (id, more) => ({ id, width: 30, height: 20, ...more });

const pair = (more) => ({
  id: 'root',
  children: [box('a'), box('b')],
  edges: [{ id: 'e', sources: ['a'], targets: ['b'] }],
  ...more,
});

const engine = (given) => new ELK({ program: PROGRAM, onWarning: () => {}, ...given });

const withOptions = (layoutOptions) => layout(pair({ layoutOptions }));

const childNamed = (id) => ({ children }) => children.find((child) => child.id === id);

/** How far the second node stands from the first, across and down. */
function gap({ children: [a, b] }) {
  return [b.x - a.x, b.y - a.y];
}

const refused = (promise, name) => assert.rejects(promise, (error) => error instanceof ELK.Refusal && error.name === name);

const isPlaced = ({ x, y, width, height }) => [x, y, width, height].every(Number.isFinite);

const USES = {
  async '`import ELK from \'elkjs\'`, or `require`'() {
    const { default: imported } = await import('../src/elk.js');
    assert.equal(imported, ELK);
    assert.equal(ELK.default, ELK);
  },
  async 'places and sizes of all nodes'() {
    const placed = await layout(pair());
    assert.ok([placed, ...placed.children].every(isPlaced));
  },
  async 'places relative to the parent'() {
    const placed = await layout({ id: 'root', children: [box('far', { width: 200 }), { id: 'group', children: [box('c')] }] });
    assert.deepEqual([childNamed('group')(placed).children[0].x, childNamed('group')(placed).children[0].y], [12, 12]);
  },
  async 'routes as sections with a start, bends and an end'() {
    const { edges } = await layout(pair({ children: [box('a'), box('b', { height: 90 }), box('c')], edges: [{ id: 'e', sources: ['a'], targets: ['b'] }, { id: 'f', sources: ['a'], targets: ['c'] }] }));
    for (const { sections: [{ id, startPoint, bendPoints = [], endPoint, incomingShape }] } of edges) {
      assert.ok([startPoint, ...bendPoints, endPoint].every(({ x, y }) => Number.isFinite(x) && Number.isFinite(y)));
      assert.deepEqual([id.endsWith('_s0'), incomingShape], [true, 'a']);
    }
  },
  async 'an application\'s own members in the result'() {
    const data = { onClick: () => {} };
    assert.equal((await layout(pair({ children: [box('a', { data }), box('b')] }))).children[0].data, data);
  },
  async 'the given graph is modified'() {
    const graph = pair();
    const placed = await layout(graph);
    assert.notEqual(placed, graph);
    assert.equal('x' in graph.children[0], false);
  },
  async 'a result is laid out again'() {
    const once = await layout(pair());
    const { logging, ...twice } = await layout(once);
    assert.deepEqual(twice, once);
  },
  async 'options as `elk.direction`, or with the whole id'() {
    assert.deepEqual(gap(await withOptions({ 'elk.direction': 'DOWN' })), [0, 40]);
    assert.deepEqual(gap(await withOptions({ 'org.eclipse.elk.direction': 'DOWN' })), [0, 40]);
  },
  async 'options by an ending of their names'() {
    assert.deepEqual(gap(await withOptions({ 'spacing.nodeNodeBetweenLayers': '50' })), [80, 0]);
  },
  async '`properties` instead of `layoutOptions`'() {
    assert.deepEqual(gap(await layout(pair({ properties: { 'elk.direction': 'DOWN' } }))), [0, 40]);
  },
  async 'numbers and booleans as values of options'() {
    assert.deepEqual(gap(await withOptions({ 'elk.layered.spacing.nodeNodeBetweenLayers': 50, 'elk.separateConnectedComponents': true })), [80, 0]);
  },
  async '`new ELK({ defaultLayoutOptions })`'() {
    assert.deepEqual(gap(await layout(pair(), { defaultLayoutOptions: { 'elk.direction': 'DOWN' } })), [0, 40]);
  },
  async '`layout(graph, { layoutOptions })`, below an element\'s own'() {
    const call = { layoutOptions: { 'elk.direction': 'DOWN' } };
    assert.deepEqual(gap(await layout(pair(), { call })), [0, 40]);
    assert.deepEqual(gap(await layout(pair({ layoutOptions: { 'elk.direction': 'UP' } }), { call })), [0, -40]);
  },
  async '`elk.direction` RIGHT, LEFT, DOWN, UP'() {
    const expected = { RIGHT: [50, 0], LEFT: [-50, 0], DOWN: [0, 40], UP: [0, -40] };
    for (const [direction, at] of Object.entries(expected)) {
      assert.deepEqual(gap(await withOptions({ 'elk.direction': direction })), at);
    }
  },
  async 'spacings, and `elk.padding`'() {
    const placed = await withOptions({ 'elk.padding': '[top=40,left=7]', 'elk.layered.spacing.nodeNodeBetweenLayers': '33' });
    assert.deepEqual([placed.children[0].x, placed.children[0].y, ...gap(placed)], [7, 40, 63, 0]);
  },
  async '`elk.layered.nodePlacement.strategy` NETWORK_SIMPLEX, BRANDES_KOEPF'() {
    for (const strategy of ['NETWORK_SIMPLEX', 'BRANDES_KOEPF']) {
      assert.ok(isPlaced(await withOptions({ 'elk.layered.nodePlacement.strategy': strategy })));
    }
  },
  async '`elk.layered.priority.shortness` of an edge'() {
    const edges = [{ id: 'e', sources: ['a'], targets: ['b'], layoutOptions: { 'elk.layered.priority.shortness': '5' } }];
    assert.equal((await layout(pair({ edges }))).layering.span, 5);
  },
  async 'an option that this engine does not have'() {
    const told = [];
    assert.ok(isPlaced(await layout(pair({ layoutOptions: { 'elk.randomSeed': '1' } }), { onWarning: ({ kind }) => told.push(kind) })));
    assert.deepEqual(told, ['foreignOption']);
  },
  async 'a misspelt option'() {
    const told = [];
    await layout(pair({ layoutOptions: { 'elk.directon': 'DOWN' } }), { onWarning: ({ near }) => told.push(near) });
    assert.deepEqual(told, ['elk.direction']);
  },
  async 'a value that an option does not take'() {
    await refused(withOptions({ 'elk.direction': 'SIDEWAYS' }), 'OptionValue');
  },
  async '`elk.algorithm` layered'() {
    for (const algorithm of ['layered', 'elk.layered', 'org.eclipse.elk.layered']) {
      assert.deepEqual(gap(await withOptions({ 'elk.algorithm': algorithm })), [50, 0]);
    }
  },
  async '`elk.algorithm` box'() {
    const placed = await layout({ id: 'root', layoutOptions: { 'elk.algorithm': 'box' }, children: [box('a'), box('b'), box('c')] });
    assert.ok(placed.children.every(isPlaced));
  },
  async '`elk.algorithm` stress, force, mrtree, radial'() {
    for (const algorithm of ['stress', 'force', 'mrtree', 'org.eclipse.elk.radial']) {
      await refused(withOptions({ 'elk.algorithm': algorithm }), 'OptionValue');
    }
  },
  async '`elk.edgeRouting` POLYLINE, SPLINES'() {
    const graph = pair({ children: [box('a', { height: 90 }), box('b'), box('c')] });
    graph.edges.push({ id: 'f', sources: ['a'], targets: ['c'] });
    const sectionsIn = async (routing) => {
      const { edges } = await layout({ ...graph, layoutOptions: { 'elk.edgeRouting': routing } });
      return edges.map(({ sections: [section] }) => section);
    };
    assert.ok((await sectionsIn('POLYLINE')).some(({ startPoint: p, endPoint: q, bendPoints }) => p.y !== q.y && !bendPoints));
    assert.ok((await sectionsIn('SPLINES')).some(({ bendPoints = [] }) => bendPoints.length > 0 && bendPoints.length % 3 === 2));
  },
  async 'parts that are not connected'() {
    const graph = pair({ children: [box('a'), box('b'), box('alone')] });
    assert.deepEqual((await layout(graph)).layering.parts, [0, 0, 1]);
    const whole = await layout({ ...graph, layoutOptions: { 'elk.separateConnectedComponents': 'false' } });
    assert.equal(whole.layering.parts, undefined);
  },
  async 'nodes in nodes, with edges in each'() {
    const group = { id: 'group', children: [box('c'), box('d')], edges: [{ id: 'cd', sources: ['c'], targets: ['d'] }] };
    const placed = await layout(pair({ children: [box('a'), group], edges: [{ id: 'e', sources: ['a'], targets: ['group'] }] }));
    assert.ok(childNamed('group')(placed).edges[0].sections);
  },
  async 'an edge at the root that joins nodes of one box'() {
    const group = { id: 'group', children: [box('c'), box('d')] };
    const { edges } = await layout({ id: 'root', children: [group], edges: [{ id: 'cd', sources: ['c'], targets: ['d'] }] });
    assert.equal(edges[0].container, 'group');
  },
  async 'an edge across the border of a box, under `elk.hierarchyHandling` INCLUDE_CHILDREN'() {
    const group = { id: 'group', children: [box('c')] };
    const layoutOptions = { 'elk.hierarchyHandling': 'INCLUDE_CHILDREN' };
    const { children: [, { x, children: [c] }], edges: [{ sections: [{ endPoint }] }] } = await layout({
      ...{ id: 'root', layoutOptions, children: [box('a'), group] },
      edges: [{ id: 'ac', sources: ['a'], targets: ['c'] }],
    });
    assert.equal(endPoint.x, x + c.x);
  },
  async 'ports, and `elk.portConstraints` FIXED_SIDE, FIXED_ORDER, FIXED_POS'() {
    for (const rule of ['FREE', 'FIXED_SIDE', 'FIXED_ORDER', 'FIXED_POS']) {
      const port = { id: 'p', x: 30, y: 4, width: 5, height: 5, layoutOptions: { 'elk.port.side': 'EAST' } };
      const a = box('a', { ports: [port], layoutOptions: { 'elk.portConstraints': rule } });
      const placed = await layout(pair({ children: [a, box('b')], edges: [{ id: 'e', sources: ['p'], targets: ['b'] }] }));
      assert.equal(placed.children[0].ports[0].x, 30, rule);
    }
  },
  async 'a port with the name of a node'() {
    const a = box('a', { ports: [{ id: 'b', width: 4, height: 4 }] });
    assert.equal((await layout(pair({ children: [a, box('b')] }))).children[0].ports[0].id, 'b');
  },
  async 'edges with `source`, `sourcePort`, `target`, `targetPort`'() {
    const a = box('a', { ports: [{ id: 'p', width: 4, height: 4 }] });
    const { edges } = await layout(pair({ children: [a, box('b')], edges: [{ id: 'e', source: 'a', sourcePort: 'p', target: 'b' }] }));
    assert.equal(edges[0].sourcePoint, undefined);
    assert.equal(edges[0].sections.length, 1);
  },
  async 'one source and several targets, or the other way round'() {
    const edges = [{ id: 'e', sources: ['a'], targets: ['b', 'c'] }];
    const { edges: [edge] } = await layout(pair({ children: [box('a'), box('b'), box('c')], edges }));
    assert.ok(edge.sections.length >= 2 && edge.junctionPoints.length === 1);
  },
  async 'several sources and several targets'() {
    await refused(layout(pair({ edges: [{ id: 'e', sources: ['a', 'b'], targets: ['b', 'a'] }] })), 'Hyperedge');
  },
  async 'loops, and several edges between two nodes'() {
    const edges = [{ id: 'l', sources: ['a'], targets: ['a'] }, ...['e', 'f', 'g'].map((id) => ({ id, sources: ['a'], targets: ['b'] }))];
    assert.ok((await layout(pair({ edges }))).edges.every(({ sections }) => sections.length === 1));
  },
  async 'labels of nodes, ports and edges'() {
    const label = { text: 'label', width: 30, height: 10 };
    const a = box('a', { labels: [label], layoutOptions: { 'elk.nodeLabels.placement': 'OUTSIDE H_CENTER V_TOP' }, ports: [{ id: 'p', width: 4, height: 4, labels: [label] }] });
    const placed = await layout(pair({ children: [a, box('b')], edges: [{ id: 'e', sources: ['p'], targets: ['b'], labels: [label] }] }));
    const [{ labels, ports }] = placed.children;
    for (const { x, y } of [...labels, ...ports[0].labels, ...placed.edges[0].labels]) {
      assert.ok(Number.isFinite(x) && Number.isFinite(y));
    }
  },
  async 'fractions in sizes'() {
    const { children: [{ width, height }] } = await layout(pair({ children: [box('a', { width: 30.2, height: 19.5 }), box('b')] }));
    assert.deepEqual([width, height], [31, 20]);
  },
  async 'ids that are numbers'() {
    const { children } = await layout({ id: 0, children: [box(1), box(2)], edges: [{ id: 3, sources: [1], targets: [2] }] });
    assert.deepEqual(children.map(({ id }) => id), [1, 2]);
  },
  async 'a node twice, or an edge to a node that is not there'() {
    await refused(layout(pair({ children: [box('a'), box('a'), box('b')] })), 'DoubleId');
    await refused(layout(pair({ children: [box('a')] })), 'UnknownEnd');
  },
  async '`logging` and `measureExecutionTime`'() {
    const { logging } = await layout(pair(), { call: { logging: true, measureExecutionTime: true } });
    assert.deepEqual([logging.name, logging.executionTime > 0, logging.logs], ['elk-draw', true, []]);
  },
  async 'a call without a graph, many calls at once, and `terminateWorker()`'() {
    const elk = engine();
    await assert.rejects(elk.layout(), /Missing mandatory parameter 'graph'/);
    const many = await Promise.all(Array.from({ length: 20 }, (_, width) => elk.layout(pair({ children: [box('a', { width }), box('b')] }))));
    assert.deepEqual(many.map(({ children: [{ width }] }) => width), [...many.keys()]);
    elk.terminateWorker();
    assert.ok(isPlaced(await elk.layout(pair())));
    elk.terminateWorker();
  },
  async '`elk.layered.layering.layerConstraint` FIRST, LAST, FIRST_SEPARATE, LAST_SEPARATE'() {
    for (const [constraint, across] of [['FIRST', -50], ['LAST', 50], ['FIRST_SEPARATE', -50], ['LAST_SEPARATE', 50]]) {
      const bound = box('b', { layoutOptions: { 'elk.layered.layering.layerConstraint': constraint } });
      assert.deepEqual(gap(await layout(pair({ children: [box('a'), bound] }))), [across, 0], constraint);
    }
  },
  async '`elk.partitioning.activate` and `elk.partitioning.partition`'() {
    const inPartition = (id, partition) => box(id, { layoutOptions: { 'elk.partitioning.partition': partition } });
    const graph = pair({ children: [inPartition('a', 1), inPartition('b', 0)], layoutOptions: { 'elk.partitioning.activate': true } });
    assert.deepEqual(gap(await layout(graph)), [-50, 0]);
  },
  async 'nodes without edges, and `elk.aspectRatio`'() {
    const children = Array.from({ length: 12 }, (_, id) => box(id));
    for (const [ratio, columns] of [[undefined, 4], ['3', 6], [0.5, 2]]) {
      const placed = await layout({ id: 'root', layoutOptions: ratio ? { 'elk.aspectRatio': ratio } : {}, children });
      assert.equal(new Set(placed.children.map(({ x }) => x)).size, columns, ratio);
    }
  },
  async '`elk.interactive`, to keep an earlier drawing'() {
    const edges = [{ id: 'e', sources: ['a'], targets: ['b'] }, { id: 'f', sources: ['a'], targets: ['c'] }];
    const placedAt = (id, y) => box(id, { x: 0, y });
    const children = [box('a'), placedAt('b', 50), placedAt('c', 10)];
    const { children: [, b, c] } = await layout(pair({ children, edges, layoutOptions: { 'elk.interactive': true } }));
    assert.ok(c.y < b.y);
  },
  async '`elk.json.shapeCoords` and `elk.json.edgeCoords`'() {
    const group = { id: 'group', children: [box('c'), box('d')], edges: [{ id: 'cd', sources: ['c'], targets: ['d'] }] };
    const layoutOptions = { 'elk.json.shapeCoords': 'ROOT', 'elk.json.edgeCoords': 'ROOT' };
    const { children: [{ x, children: [c], edges: [{ sections: [{ startPoint }] }] }] } = await layout({ id: 'root', layoutOptions, children: [group] });
    assert.deepEqual([c.x, startPoint.x], [x + 12, x + 42]);
  },
};

for (const [use, trial] of Object.entries(USES)) {
  test(`use of elkjs: ${use}`, WITH_PROGRAM, trial);
}

const page = readFileSync(path.join(TOP, 'docs', 'EDITORS.md'), 'utf8');

test('the page has these uses, each the same, another or refused', () => {
  const rows = [...page.matchAll(/^\| (?:\d+) \| (.*) \| (.*) \|$/gm)].map(([, use, here]) => [use, here]);
  assert.deepEqual(rows.map(([use]) => use), Object.keys(USES));
  assert.equal(rows.length, 45);
  const odd = rows.filter(([, here]) => !/^(the same|differs: .+|refused: .+)/.test(here));
  assert.deepEqual(odd, []);
  for (const [, heading] of rows.map(([, here]) => /\(([^()]+)\)$/.exec(here)).filter(Boolean)) {
    assert.ok(page.includes(`\n## ${heading}\n`), heading);
  }
  for (const [use, here] of rows.filter(([, it]) => it.startsWith('refused: '))) {
    assert.match(here, /^refused: (OptionValue|CrossLevel|Hyperedge|DoubleId and UnknownEnd)/, use);
  }
});
