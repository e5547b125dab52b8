'use strict';
// What editors write and read stays unchanged.

const assert = require('node:assert/strict');
const test = require('node:test');
const { layout } = require('./helpers/layout');
const { WITH_PROGRAM } = require('./helpers/program');

const byId = (list) => Object.fromEntries(list.map((it) => [it.id, it]));

test('React Flow: its nodes and edges unchanged, horizontal and vertical', WITH_PROGRAM, async () => {
  const nodes = ['1', '2', '2a', '2b', '3'].map((id) => ({
    id,
    type: 'default',
    data: { label: `node ${id}` },
    position: { x: 0, y: 0 },
  }));
  const edges = [['1', '2'], ['1', '3'], ['2', '2a'], ['2', '2b']].map(([source, target]) => ({
    id: `e${source}${target}`,
    source,
    target,
    type: 'smoothstep',
    animated: true,
    label: 'a text of its own',
  }));
  const options = {
    'elk.algorithm': 'layered',
    'elk.layered.spacing.nodeNodeBetweenLayers': '100',
    'elk.spacing.nodeNode': '80',
  };
  for (const direction of ['DOWN', 'RIGHT']) {
    const isHorizontal = direction === 'RIGHT';
    const children = nodes.map((node) => ({
      ...node,
      targetPosition: isHorizontal ? 'left' : 'top',
      sourcePosition: isHorizontal ? 'right' : 'bottom',
      width: 150,
      height: 50,
    }));
    const placed = await layout({ id: 'root', layoutOptions: { 'elk.direction': direction, ...options }, children, edges });
    const at = byId(placed.children);
    const [axis, size] = isHorizontal ? ['x', 150] : ['y', 50];
    for (const { source, target } of edges) {
      assert.ok(at[target][axis] - at[source][axis] >= size + 100, `${source} ${target} ${direction}`);
    }
    assert.deepEqual(placed.children.map(({ data, position }) => [data, position]), nodes.map(({ data, position }) => [data, position]));
    assert.deepEqual(placed.edges.map(({ type, label }) => [type, label]), edges.map(({ type, label }) => [type, label]));
  }
});

test('React Flow: handles as ports, of which one is called like its node', WITH_PROGRAM, async () => {
  const handles = (id, kind, count) => Array.from({ length: count }, (_, at) => ({ id: `${id}-${kind}-${at}` }));
  const nodes = [['a', 0, 3], ['b', 1, 1], ['c', 2, 0]].map(([id, targets, sources]) => ({
    id,
    width: 150,
    height: 50,
    data: { targetHandles: handles(id, 't', targets), sourceHandles: handles(id, 's', sources) },
  }));
  const edges = [
    { id: 'ab', source: 'a', sourceHandle: 'a-s-0', target: 'b', targetHandle: 'b-t-0' },
    { id: 'ac', source: 'a', sourceHandle: 'a-s-1', target: 'c', targetHandle: 'c-t-0' },
    { id: 'bc', source: 'b', target: 'c' },
  ];
  const placed = await layout({
    id: 'root',
    layoutOptions: {
      'elk.algorithm': 'layered',
      'elk.direction': 'RIGHT',
      'elk.layered.spacing.edgeNodeBetweenLayers': '40',
      'elk.spacing.nodeNode': '40',
      'elk.layered.nodePlacement.strategy': 'SIMPLE',
    },
    children: nodes.map((node) => ({
      id: node.id,
      width: node.width,
      height: node.height,
      properties: { 'org.eclipse.elk.portConstraints': 'FIXED_ORDER' },
      ports: [
        { id: node.id },
        ...node.data.targetHandles.map(({ id }) => ({ id, properties: { side: 'WEST' } })),
        ...node.data.sourceHandles.map(({ id }) => ({ id, properties: { side: 'EAST' } })),
      ],
    })),
    edges: edges.map(({ id, source, sourceHandle, target, targetHandle }) => ({
      id,
      sources: [sourceHandle || source],
      targets: [targetHandle || target],
    })),
  });
  const at = byId(placed.children);
  const ports = byId(placed.children.flatMap((node) => node.ports.map((port) => ({ ...port, id: `${node.id} ${port.id}` }))));
  assert.deepEqual([ports['a a-s-0'].x, ports['b b-t-0'].x], [150, 0]);
  // The order of the handles is kept from top to bottom on the right, and from bottom to top on the left.
  const tops = [0, 1, 2].map((k) => ports[`a a-s-${k}`].y);
  assert.deepEqual(tops, tops.slice().sort((one, other) => one - other));
  assert.ok(ports['c c-t-0'].y > ports['c c-t-1'].y);
  const [ab, , bc] = placed.edges;
  assert.deepEqual(ab.sections[0].startPoint, { x: at.a.x + 150, y: at.a.y + ports['a a-s-0'].y });
  assert.equal(bc.sections[0].startPoint.x, at.b.x + 150);
});

test('React Flow: groups within groups', WITH_PROGRAM, async () => {
  const nodes = [
    { id: 'A', type: 'group' },
    { id: 'A-1', parentId: 'A', measured: { width: 150.5, height: 40.25 } },
    { id: 'A-2', parentId: 'A', measured: { width: 150.5, height: 40.25 } },
    { id: 'B', type: 'group', parentId: 'A' },
    { id: 'B-1', parentId: 'B', measured: { width: 80, height: 40.25 } },
    { id: 'C', measured: { width: 100, height: 40 } },
  ];
  const childrenOf = (id) =>
    nodes
      .filter(({ parentId }) => parentId === id)
      .map((node) => ({ ...node, ...node.measured, children: childrenOf(node.id), labels: [{ text: node.id }] }));
  const placed = await layout(
    {
      id: 'root',
      children: childrenOf(undefined),
      edges: [
        { id: 'e1', sources: ['A-1'], targets: ['A-2'] },
        { id: 'e2', sources: ['A-2'], targets: ['B'] },
        { id: 'e3', sources: ['A'], targets: ['C'] },
      ],
    },
    { layoutOptions: { 'elk.direction': 'DOWN', 'elk.nodeLabels.placement': 'INSIDE V_TOP H_LEFT' } },
  );
  const [group, single] = placed.children;
  const [first, second, inner] = group.children;
  assert.ok(first.y < second.y && second.y < inner.y && group.y + group.height < single.y);
  // The text of a group stands above what the group holds.
  assert.ok(group.labels[0].y + group.labels[0].height < first.y);
  assert.deepEqual([first.width, first.height], [151, 41]);
  assert.deepEqual(placed.edges.map(({ container }) => container), ['A', 'A', 'root']);
});

test('netlistsvg: a gate whose pins lie inside', WITH_PROGRAM, async () => {
  const cell = (id, width, height, ports) => ({
    id,
    width,
    height,
    ports: ports.map(([name, x, y]) => ({ id: `${id}.${name}`, width: 0, height: 0, x, y })),
    layoutOptions: { 'org.eclipse.elk.portConstraints': 'FIXED_POS' },
    labels: [{ id: `${id}.label`, text: id, x: 3, y: -4, width: 9, height: 11 }],
  });
  const placed = await layout({
    id: 'or',
    layoutOptions: {
      'org.eclipse.elk.layered.spacing.nodeNodeBetweenLayers': '35',
      'org.eclipse.elk.spacing.nodeNode': '35',
      'org.eclipse.elk.direction': 'RIGHT',
    },
    children: [
      cell('a', 30, 20, [['Y', 30, 10]]),
      cell('b', 30, 20, [['Y', 30, 10]]),
      cell('gate', 30, 25, [['A', 3, 5], ['B', 3, 20], ['Y', 30, 12.5]]),
      cell('y', 30, 20, [['A', 0, 10]]),
    ],
    edges: [
      { id: 'e0', sources: ['a.Y'], targets: ['gate.A'] },
      { id: 'e1', sources: ['b.Y'], targets: ['gate.B'] },
      { id: 'e2', sources: ['gate.Y'], targets: ['y.A'] },
    ],
  });
  const { gate } = byId(placed.children);
  // The lines lead on to the pins, which stay at their given places.
  const ends = placed.edges.slice(0, 2).map(({ sections: [{ endPoint }] }) => [endPoint.x - gate.x, endPoint.y - gate.y]);
  assert.deepEqual(ends, [[3, 5], [3, 20]]);
  assert.deepEqual(gate.ports.map(({ x, y }) => [x, y]), [[3, 5], [3, 20], [30, 13]]);
  assert.deepEqual(gate.labels, [{ id: 'gate.label', text: 'gate', x: 3, y: -4, width: 9, height: 11 }]);
});

// As sprotty-elk turns a model into a graph, and reads the drawing back.
const isOf = (kind) => ({ type }) => type.startsWith(kind);
const shape = ({ id, type, size }) => ({ id, type, ...size });
const label = (it) => ({ ...shape(it), text: it.text });
const elements = (it, kind) => (it.children ?? []).filter(isOf(kind));

const toElk = (it) => ({
  ...shape(it),
  children: elements(it, 'node').map(toElk),
  edges: elements(it, 'edge').map((edge) => ({
    id: edge.id,
    type: edge.type,
    sources: [edge.sourceId],
    targets: [edge.targetId],
    labels: elements(edge, 'label').map(label),
  })),
  ports: elements(it, 'port').map((port) => ({ ...shape(port), labels: elements(port, 'label').map(label) })),
  labels: elements(it, 'label').map(label),
  ...(it.type === 'graph' && { layoutOptions: { 'org.eclipse.elk.algorithm': 'layered', 'org.eclipse.elk.direction': 'DOWN' } }),
});

test('sprotty: a model with types, sizes and labels', WITH_PROGRAM, async () => {
  const size = { width: 60.3, height: 30 };
  const text = (id) => ({ type: 'label:text', id, text: id, size: { width: 31.6, height: 12 } });
  const node = (id, ...children) => ({ type: 'node:task', id, size, children: [text(`${id}.name`), ...children] });
  const port = (id) => ({ type: 'port', id, size: { width: 8, height: 8 }, children: [text(`${id}.name`)] });
  const edge = (id, sourceId, targetId) => ({ type: 'edge:flow', id, sourceId, targetId, children: [text(`${id}.name`)] });
  const model = {
    type: 'graph',
    id: 'model',
    children: [node('one', port('one.out')), node('two'), edge('e1', 'one.out', 'two'), edge('e2', 'two', 'one')],
  };
  const placed = await layout(toElk(model));
  for (const { type, labels, sections } of placed.edges) {
    assert.equal(type, 'edge:flow');
    assert.ok(labels.every(({ x, y }) => Number.isFinite(x) && Number.isFinite(y)));
    assert.deepEqual(labels.map(({ width, height }) => [width, height]), [[31.6, 12]]);
    assert.ok(Number.isFinite(sections[0].startPoint.x));
  }
  const [one] = placed.children;
  assert.ok(one.ports[0].labels.every(({ x, y }) => Number.isFinite(x) && y > 8));
  assert.deepEqual([one.type, one.width, one.height], ['node:task', 61, 30]);
});

test('merged edges without ports share a dock at each side of a node', WITH_PROGRAM, async () => {
  const children = ['a', 'b', 'c', 'd'].map((id) => ({ id, width: 40, height: 60 }));
  const edges = [['a', 'b'], ['a', 'c'], ['b', 'd'], ['c', 'd'], ['d', 'a']].map(([source, target], at) => ({ id: at, source, target }));
  const graph = { id: 'r', layoutOptions: { mergeEdges: true }, children, edges };
  const placed = await layout(graph);
  const points = ({ sections: [{ startPoint, endPoint }] }) => [startPoint, endPoint].map(({ x, y }) => `${x} ${y}`);
  const [ab, ac, bd, cd] = placed.edges.map(points);
  assert.equal(ab[0], ac[0]);
  assert.equal(bd[1], cd[1]);
  assert.deepEqual(placed.layering.reversed, [4]);
  assert.deepEqual(placed.edges.map(({ source, target }) => [source, target]), edges.map(({ source, target }) => [source, target]));
  assert.ok(placed.children.every((node) => !('ports' in node)));
  const apart = await layout({ ...graph, layoutOptions: {} });
  assert.notEqual(points(apart.edges[0])[0], points(apart.edges[1])[0]);
});
