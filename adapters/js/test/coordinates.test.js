'use strict';
// What coordinates of a result are relative to.

const assert = require('node:assert/strict');
const test = require('node:test');
const { layout } = require('./helpers/layout');
const { WITH_PROGRAM } = require('./helpers/program');

const leaf = (id, more) => ({ id, width: 40, height: 30, ...more });
const label = (text) => ({ text, width: 20, height: 10, layoutOptions: { 'elk.nodeLabels.placement': 'INSIDE V_TOP H_LEFT' } });

/** A graph with an edge of each kind: at its parent, declared at the root, and across the border. */
const graph = (layoutOptions = {}, inner = {}) => ({
  id: 'r',
  layoutOptions,
  children: [
    leaf('x'),
    {
      ...{ id: 'g', layoutOptions: inner },
      children: [leaf('a', { labels: [label('a')] }), leaf('b', { ports: [{ id: 'p', width: 4, height: 4, labels: [label('p')] }] })],
      edges: [{ id: 'ab', sources: ['a'], targets: ['p'], labels: [label('ab')] }],
    },
  ],
  edges: [{ id: 'ba', sources: ['b'], targets: ['a'] }, { id: 'xa', sources: ['x'], targets: ['a'] }],
});

const at = ({ x, y }) => [x, y];

/** The places of all that a group holds, and of the ends of the edges. */
function placesIn({ children: [, { x, y, children: [a, b], edges: [ab] }], edges: [ba, xa] }) {
  const [port] = b.ports;
  return {
    ...{ group: [x, y], a: at(a), label: at(a.labels[0]), port: at(port), portLabel: at(port.labels[0]) },
    ...{ ab: at(ab.sections[0].startPoint), edgeLabel: at(ab.labels[0]), ba: at(ba.sections[0].startPoint), xa: at(xa.sections[0].endPoint) },
  };
}

const plus = (...places) => [0, 1].map((axis) => places.reduce((sum, place) => sum + place[axis], 0));

test('shapes and edges are relative to what json.shapeCoords and json.edgeCoords ask for', WITH_PROGRAM, async () => {
  const parent = placesIn(await layout(graph()));
  const { group, a, label: ofNode, port, portLabel, ab, edgeLabel, ba } = parent;
  const b = (await layout(graph())).children[1].children[1];
  const shapes = {
    ...{ a: plus(group, a), label: plus(group, a, ofNode), port: plus(group, at(b), port) },
    portLabel: plus(group, at(b), port, portLabel),
  };
  const edges = { ab: plus(group, ab), edgeLabel: plus(group, edgeLabel), ba: plus(group, ba) };
  const rows = [
    [{ 'elk.json.shapeCoords': 'ROOT' }, { ...parent, ...shapes }],
    [{ 'elk.json.edgeCoords': 'ROOT' }, { ...parent, ...edges }],
    [{ 'json.edgeCoords': 'PARENT' }, { ...parent, ba: edges.ba }],
    [{ 'elk.json.shapeCoords': 'ROOT', 'elk.json.edgeCoords': 'root' }, { ...parent, ...shapes, ...edges }],
    [{ 'elk.json.shapeCoords': 'INHERIT', 'elk.json.edgeCoords': 'CONTAINER' }, parent],
  ];
  for (const [options, expected] of rows) {
    assert.deepEqual(placesIn(await layout(graph(options))), expected, JSON.stringify(options));
    assert.deepEqual(placesIn(await layout(graph(), { layoutOptions: options })), expected, `${JSON.stringify(options)} of the call`);
  }
  const own = placesIn(await layout(graph({ 'elk.json.shapeCoords': 'ROOT' }, { 'elk.json.shapeCoords': 'PARENT' })));
  assert.deepEqual([own.group, own.a], [group, a]);
});

test('nodes and ports without a size come back with one of 0', WITH_PROGRAM, async () => {
  const { children: [a, b] } = await layout({ id: 'r', children: [{ id: 'a', ports: [{ id: 'p' }] }, leaf('b')] });
  assert.deepEqual([a.width, a.height, a.ports[0].width, a.ports[0].height], [0, 0, 0, 0]);
  assert.deepEqual([b.width, b.height], [40, 30]);
});

test('a result in coordinates of the root leaves the given graph as it is', WITH_PROGRAM, async () => {
  const given = graph({ 'elk.json.shapeCoords': 'ROOT', 'elk.json.edgeCoords': 'ROOT' });
  const before = JSON.stringify(given);
  await layout(given);
  assert.equal(JSON.stringify(given), before);
});

test('leaves without a size, and labels that nothing places, come back with 0', WITH_PROGRAM, async () => {
  const texts = [{ text: 'a' }, { text: 'b', width: 9.5, height: 4 }];
  const labels = texts.map((it) => ({ ...it }));
  const children = [{ id: 'a', labels, ports: [{ id: 'p', labels }], layoutOptions: { 'elk.portLabels.placement': 'FIXED' } }];
  const { children: [a] } = await layout({ id: 'r', children });
  const [first, second] = [{ text: 'a', x: 0, y: 0, width: 0, height: 0 }, { text: 'b', x: 0, y: 0, width: 9.5, height: 4 }];
  assert.deepEqual([a.width, a.height, a.labels, a.ports[0].labels], [0, 0, [first, second], [first, second]]);
  assert.deepEqual(labels, texts);
});
