'use strict';
// Edges that cross borders of levels, in drawings that are judged by what shares no code with what draws them.

const assert = require('node:assert/strict');
const test = require('node:test');
const ELK = require('../src/elk');
const { acrossBorders } = require('./helpers/across');
const { judged } = require('./helpers/drawing-faults');
const { quietLayout: layout } = require('./helpers/layout');
const { WITH_PROGRAM, run } = require('./helpers/program');

// ELK_SEEDS documents of each kind.
const SEEDS = Number(process.env.ELK_SEEDS ?? 12);

const leaf = (id, more) => ({ id, width: 40, height: 30, ...more });
const group = (id, children, more) => ({ id, children, ...more });
const edge = (id, source, target, more) => ({ id, sources: [source], targets: [target], ...more });
const label = (text, placement) => ({ text, width: 30, height: 12, layoutOptions: { 'elk.edgeLabels.placement': placement } });

/** Lays out a graph, which stays as it is, and finds no fault with its drawing. */
async function drawn(graph, name) {
  const before = JSON.stringify(graph);
  const placed = await layout(graph);
  assert.equal(JSON.stringify(graph), before, name);
  const verdict = judged(placed, graph);
  assert.deepEqual(verdict.faults, [], `${name}: ${JSON.stringify(graph)}`);
  return { placed, ...verdict };
}

const KINDS = [
  ['of all kinds', 30000, {}],
  ['with ports of groups, inward edges and mixed directions', 31000, { pins: true, inward: true, mixed: true, across: 0.4 }],
  ['small, nearly all nodes with ports', 60000, { nodes: 9, ports: 1, pins: true, across: 0.6, density: 1.5 }],
  ['with labels and edges of two targets', 32000, { labels: 0.4, hyper: 0.1 }],
];

for (const [kind, first, asked] of KINDS) {
  test(`random documents ${kind} are drawn without a fault`, WITH_PROGRAM, async () => {
    for (let seed = first; seed < first + SEEDS; seed += 1) {
      await drawn(acrossBorders(seed, asked), `document ${seed}`);
    }
  });
}

// Each with what it does to a drawing, and what is then found.
const SPOILED = [
  ['a bend is moved', ({ edges: [{ sections: [{ bendPoints: [bend] }] }] }) => Object.assign(bend, { y: bend.y + 1 }), /slanted/],
  ['an end leaves its node', ({ edges: [, { sections: [{ endPoint }] }] }) => Object.assign(endPoint, { x: endPoint.x - 1 }), /not at its anchor/],
  ['a node is moved', ({ children: [a] }) => Object.assign(a, { y: a.y + 200 }), /not inside/],
  ['a group is narrower', ({ children: [, b] }) => Object.assign(b, { width: b.width - 13 }), /not inside/],
  ['an edge takes the route of another', ({ edges: [one, other] }) => Object.assign(one, { sections: other.sections }), /anchor/],
  ['a route is missing', ({ edges: [one] }) => Object.assign(one, { sections: [] }), /not drawn/],
];

test('spoiled drawings are found out', WITH_PROGRAM, async () => {
  const graph = { id: 'r', children: [leaf('a', { height: 90 }), group('g', [leaf('b'), leaf('c')])], edges: [edge(1, 'a', 'c'), edge(2, 'a', 'b')] };
  const { placed } = await drawn(graph, 'whole');
  for (const [name, spoil, found] of SPOILED) {
    const spoiled = structuredClone(placed);
    spoil(spoiled);
    assert.match(judged(spoiled, graph).faults.join(), found, name);
  }
});

test('sixty documents have no more crossings, bends and length than was reached once', WITH_PROGRAM, async () => {
  const sums = { routes: 0, across: 0, crossings: 0, bends: 0, length: 0 };
  for (let seed = 40000; seed < 40060; seed += 1) {
    const asked = { nodes: 35, mixed: false, across: 0.3, ports: 0, pins: false, inward: false };
    const found = await drawn(acrossBorders(seed, asked), `document ${seed}`);
    Object.keys(sums).forEach((name) => {
      sums[name] += found[name];
    });
  }
  assert.deepEqual([sums.routes, sums.across], [2070, 503]);
  assert.ok(sums.crossings <= 640 && sums.bends <= 3515 && sums.length <= 475_000, JSON.stringify(sums));
});

const port = (id, side, more) => ({ id, width: 6, height: 6, layoutOptions: { 'elk.port.side': side, ...more } });
const noPadding = { 'elk.padding': '[top=0,left=0,bottom=0,right=0]' };

const CASES = {
  'from the root to what stands in it, and back': { children: [leaf('a'), leaf('b')], edges: [edge(1, 'r', 'a'), edge(2, 'b', 'r'), edge(3, 'a', 'b')] },
  'a group to its own child, and a loop': {
    children: [group('c', [leaf('a'), leaf('b')]), leaf('x')],
    edges: [edge(1, 'c', 'a'), edge(2, 'b', 'c'), edge(3, 'c', 'c'), edge(4, 'a', 'x'), edge(5, 'x', 'c')],
  },
  'numbers as ids, the primitive form, edges declared deep': {
    children: [group(1, [leaf(2, { ports: [{ id: 9 }] })], { edges: [{ id: 1, source: 2, sourcePort: 9, target: 3 }] }), leaf(3)],
    edges: [{ id: 2, source: 3, target: 2 }],
  },
  'fractions': {
    children: [group('c', [leaf('a', { width: 40.5, height: 30.2 })]), leaf('b')],
    edges: [edge(1, 'a', 'b'), edge(2, 'b', 'a')],
  },
  'a level of boxes': {
    children: [group('c', [leaf('a'), leaf('b'), leaf('d')], { layoutOptions: { 'elk.algorithm': 'box' } }), leaf('x')],
    edges: [edge(1, 'a', 'x'), edge(2, 'x', 'b')],
  },
  'many levels': {
    children: [[...Array(12).keys()].reduce((child, k) => group(`c${k}`, [child, leaf(`l${k}`)]), leaf('deep')), leaf('x')],
    edges: [edge('a', 'deep', 'x'), edge('b', 'x', 'deep'), ...[...Array(11).keys()].map((k) => edge(`e${k}`, `l${k}`, `l${k + 1}`))],
  },
  'no padding': {
    children: [group('c', [leaf('a'), leaf('b'), leaf('d')], { layoutOptions: noPadding }), leaf('x')],
    edges: [edge(1, 'a', 'x'), edge(2, 'x', 'b'), edge(3, 'a', 'b'), edge(4, 'b', 'd'), edge(5, 'a', 'd')],
  },
  'leaves without a size': { children: [group('c', [{ id: 'a' }, { id: 'b' }]), { id: 'x' }], edges: [edge(1, 'a', 'x'), edge(2, 'x', 'b')] },
  'ports in a fixed order across the direction, reached from both sides': {
    children: [
      leaf('x'),
      group('c', [leaf('a'), leaf('b'), leaf('d')], {
        layoutOptions: { 'elk.portConstraints': 'FIXED_ORDER' },
        ports: [port('p', 'NORTH', { 'elk.port.index': 1 }), port('q', 'NORTH', { 'elk.port.index': 2 }), port('o', 'NORTH', { 'elk.port.index': 3 })],
      }),
    ],
    edges: [edge(1, 'd', 'p'), edge(2, 'q', 'a'), edge(3, 'a', 'b'), edge(4, 'b', 'd'), edge(5, 'x', 'a'), edge(6, 'b', 'o')],
  },
  ...Object.fromEntries(
    [['RIGHT', 'NORTH'], ['LEFT', 'SOUTH'], ['DOWN', 'EAST'], ['UP', 'WEST']].map(([direction, side]) => [
      `ports in a fixed order, reached from where a level begins that leads ${direction}`,
      {
        layoutOptions: { 'elk.direction': direction },
        children: [
          group('c', [leaf('a'), leaf('b')], {
            layoutOptions: { 'elk.direction': direction, 'elk.portConstraints': 'FIXED_ORDER' },
            ports: [port('p', side, { 'elk.port.index': 1 }), port('q', side, { 'elk.port.index': 2 })],
          }),
        ],
        edges: [edge(1, 'p', 'a'), edge(2, 'q', 'b')],
      },
    ]),
  ),
  'labels at both ends, in groups without room': {
    children: [group('c', [leaf('a')], { layoutOptions: noPadding }), group('d', [leaf('u')])],
    edges: [
      edge(1, 'a', 'u', { labels: [label('tail', 'TAIL'), label('middle', 'CENTER'), label('head', 'HEAD')] }),
      edge(2, 'u', 'a', { labels: [label('tail 2', 'TAIL'), label('head 2', 'HEAD')] }),
      edge(3, 'c', 'a', { labels: [label('inward', 'CENTER')] }),
    ],
  },
};

for (const [name, graph] of Object.entries(CASES)) {
  test(`across borders: ${name}`, WITH_PROGRAM, () => drawn({ id: 'r', ...graph }, name));
}

test('a port that edges from within and from outside share is one dock', WITH_PROGRAM, async () => {
  const graph = {
    id: 'r',
    children: [group('c', [leaf('a'), leaf('b')], { ports: [port('p'), port('q')] }), leaf('x'), leaf('y')],
    edges: [edge(1, 'x', 'p'), edge(2, 'p', 'a'), edge(3, 'p', 'b'), edge(4, 'b', 'q'), edge(5, 'q', 'y'), edge(6, 'a', 'q')],
  };
  const { placed } = await drawn(graph, 'ports');
  const [c] = placed.children;
  const [p, q] = c.ports;
  const ends = Object.fromEntries(placed.edges.map(({ id, sections: [{ startPoint, endPoint }] }) => [id, [startPoint, endPoint]]));
  const [left, line] = [c.x + p.x, c.y + p.y + 3];
  assert.deepEqual([ends[1][1], ends[5][0]], [{ x: left, y: line }, { x: c.x + q.x + 6, y: c.y + q.y + 3 }]);
  // Within, points are relative to the group.
  assert.deepEqual([ends[2][0], ends[3][0]], [{ x: 0, y: p.y + 3 }, { x: 0, y: p.y + 3 }]);
  assert.deepEqual(placed.edges.map(({ container }) => container), ['r', 'c', 'c', 'c', 'r', 'c']);
});

test('an edge of several ends across borders is a tree of sections', WITH_PROGRAM, async () => {
  const children = [group('c', [leaf('a'), leaf('b')]), group('d', [leaf('u'), leaf('v')])];
  const edges = [{ id: 'h', sources: ['a'], targets: ['u', 'v', 'b'] }, { id: 'i', sources: ['b', 'u'], targets: ['v'] }];
  const { placed } = await drawn({ id: 'r', children, edges }, 'hyperedges');
  const [{ sections: fromOne, container }, { sections: toOne }] = placed.edges;
  assert.equal(container, 'r');
  assert.deepEqual(fromOne.filter((it) => !it.incomingSections).map(({ incomingShape }) => incomingShape), ['a']);
  assert.deepEqual(fromOne.filter((it) => !it.outgoingSections).map(({ outgoingShape }) => outgoingShape).sort(), ['b', 'u', 'v']);
  assert.deepEqual(toOne.filter((it) => !it.incomingSections).map(({ incomingShape }) => incomingShape).sort(), ['b', 'u']);
  assert.deepEqual(toOne.filter((it) => !it.outgoingSections).map(({ outgoingShape }) => outgoingShape), ['v']);
});

const pair = (options = {}, inner = {}) => ({
  id: 'root',
  layoutOptions: options,
  children: [leaf('a'), group('group', [leaf('b'), leaf('c')], { layoutOptions: inner })],
  edges: [edge('ab', 'a', 'b'), edge('bc', 'b', 'c')],
});

const HANDLINGS = [
  ['nothing', {}, {}, true],
  ['INCLUDE_CHILDREN at the root', { 'elk.hierarchyHandling': 'INCLUDE_CHILDREN' }, {}, true],
  ['INHERIT', { 'elk.hierarchyHandling': 'INHERIT' }, {}, true],
  ['SEPARATE_CHILDREN at the root', { 'elk.hierarchyHandling': 'SEPARATE_CHILDREN' }, {}, false],
  ['SEPARATE_CHILDREN at the group', { hierarchyHandling: 'INCLUDE_CHILDREN' }, { hierarchyHandling: 'SEPARATE_CHILDREN' }, false],
  ['SEPARATE_CHILDREN around the group', { hierarchyHandling: 'SEPARATE_CHILDREN' }, { hierarchyHandling: 'INCLUDE_CHILDREN' }, false],
];

test('hierarchyHandling says which borders edges may cross', WITH_PROGRAM, async () => {
  for (const [name, options, inner, isDrawn] of HANDLINGS) {
    const graph = pair(options, inner);
    if (isDrawn) {
      await drawn(graph, name);
    } else {
      await assert.rejects(layout(graph), { rule: 10, name: 'CrossLevel', id: 'ab', path: 'edges[0]' }, name);
    }
  }
  const call = { layoutOptions: { 'elk.hierarchyHandling': 'SEPARATE_CHILDREN' } };
  await assert.rejects(layout(pair(), { call }), { name: 'CrossLevel' });
});

test('a group without a direction takes that of the level around it under INCLUDE_CHILDREN alone', WITH_PROGRAM, async () => {
  const isBelow = ({ children: [, { children: [b, c] }] }) => c.y > b.y + b.height;
  const down = { 'elk.direction': 'DOWN' };
  const included = { ...down, 'elk.hierarchyHandling': 'INCLUDE_CHILDREN' };
  assert.equal(isBelow(await layout(pair(down))), false);
  assert.equal(isBelow(await layout(pair(included))), true);
  assert.equal(isBelow(await layout(pair(included, { 'elk.direction': 'RIGHT' }))), false);
  const within = { ...pair(included), edges: [edge('bc', 'b', 'c')] };
  const placed = await layout(within);
  assert.deepEqual([isBelow(placed), placed.children[1].layoutOptions], [true, {}]);
});

test('what is wrong with a graph is reported as ever', WITH_PROGRAM, async () => {
  const wrong = (more) => ({ ...pair(), ...more });
  const rows = [
    [wrong({ edges: [edge('ab', 'a', 'b'), edge('no', 'a', 'nobody')] }), { rule: 8, id: 'no', path: 'edges[1].targets[0]' }],
    [pair({ 'elk.direction': 'ASIDE' }), { rule: 11, path: 'layoutOptions["elk.direction"]' }],
    [pair({}, { 'elk.direction': 'ASIDE' }), { rule: 11, path: 'children[1].layoutOptions["elk.direction"]' }],
    [wrong({ children: [leaf('a', { width: -1 }), ...pair().children.slice(1)] }), { rule: 4, id: 'a', path: 'children[0].width' }],
    [wrong({ edges: [edge('ab', 'a', 'b'), { id: 'm', sources: ['a', 'b'], targets: ['b', 'c'] }] }), { rule: 9, id: 'm' }],
    [wrong({ edges: [edge('ab', 'a', 'b'), edge('loop', 'root', 'root')] }), { rule: 10, id: 'loop' }],
  ];
  for (const [graph, expected] of rows) {
    await assert.rejects(layout(graph), (error) => {
      assert.ok(error instanceof ELK.Refusal, String(error.stack));
      for (const [name, value] of Object.entries(expected)) {
        assert.deepEqual(error[name], value, `${name}: ${error.message}`);
      }
      return true;
    });
  }
});

test('a group with such edges grows for what it asks, and its labels keep clear of lines', WITH_PROGRAM, async () => {
  const options = {
    'elk.direction': 'DOWN',
    'elk.nodeSize.constraints': 'MINIMUM_SIZE NODE_LABELS',
    'elk.nodeSize.minimum': '(300, 200)',
    'elk.nodeLabels.placement': 'INSIDE V_TOP H_CENTER',
  };
  const title = { text: 'a long title of the group', width: 140, height: 15 };
  const graph = pair({ 'elk.direction': 'DOWN' }, options);
  graph.children[1].labels = [title];
  const { placed } = await drawn(graph, 'minimum');
  assert.deepEqual([placed.children[1].width, placed.children[1].height], [300, 200]);
  const narrow = pair({ 'elk.direction': 'DOWN' }, { ...options, 'elk.nodeSize.constraints': '' });
  narrow.children[1].labels = [title];
  await drawn(narrow, 'a title wider than the group');
});

test('labels of ports of a group with such edges stand where they are asked for', WITH_PROGRAM, async () => {
  for (const placement of ['OUTSIDE', 'INSIDE']) {
    const ports = ['in', 'reset', 'out'].map((id) => ({ ...port(id), labels: [{ text: id, width: 24, height: 10 }] }));
    const c = group('c', [leaf('a'), leaf('b')], { ports, layoutOptions: { 'elk.portLabels.placement': placement } });
    const within = [edge(1, 'in', 'a'), edge(2, 'reset', 'a'), edge(3, 'a', 'b'), edge(4, 'b', 'out')];
    const edges = [...within, edge(5, 'x', 'in'), edge(6, 'x', 'reset'), edge(7, 'out', 'y')];
    const { placed } = await drawn({ id: 'r', children: [leaf('x', { height: 90 }), c, leaf('y')], edges }, placement);
    const { ports: [first, , last], width } = placed.children[1];
    const [left, right] = [first.x + first.labels[0].x, last.x + last.labels[0].x];
    assert.deepEqual([left < 0, right >= width], placement === 'OUTSIDE' ? [true, true] : [false, false], placement);
  }
});

test('levels that no such edge touches keep their certificates', WITH_PROGRAM, async () => {
  const graph = pair();
  graph.children.push(group('own', [leaf('u'), leaf('v')], { edges: [edge('uv', 'u', 'v')] }));
  const { placed } = await drawn(graph, 'certificates');
  const [, open, closed] = placed.children;
  assert.deepEqual([open.layering === undefined, closed.layering.span], [true, 1]);
  assert.equal(run(['check'], JSON.stringify({ ...closed, x: 0, y: 0 })).stdout, 'yes\n');
});

test('general options hold for all levels, and a limit that a level breaks is reported of the graph', WITH_PROGRAM, async () => {
  const call = { layoutOptions: { 'elk.direction': 'DOWN', 'elk.nodeSize.constraints': 'PORTS MINIMUM_SIZE' } };
  const graph = pair();
  const placed = await layout(graph, { call });
  assert.deepEqual(judged(placed, graph).faults, []);
  assert.ok(placed.children[1].y > placed.children[0].y + 30);
  const many = pair();
  many.edges.push(...Array.from({ length: 1200 }, (_, at) => edge(at, 'b', 'c', { labels: [label('x', 'CENTER')] })));
  await assert.rejects(layout(many), { name: 'TooMany' });
});
