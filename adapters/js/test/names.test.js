'use strict';

const assert = require('node:assert/strict');
const test = require('node:test');
const ELK = require('../src/elk');
const { PROGRAM, WITH_PROGRAM } = require('./helpers/program');

const layout = async (graph) => {
  const elk = new ELK({ program: PROGRAM });
  try {
    return await elk.layout(graph);
  } finally {
    elk.terminateWorker();
  }
};

const box = (id, more) => ({ id, width: 60, height: 40, ...more });

// The node a has ports that are called like nodes.
const namesakes = (edges) => ({
  id: 'r',
  children: [box('a', { ports: [{ id: 'a', width: 8, height: 8 }, { id: 'b', width: 8, height: 8 }] }), box('b')],
  edges,
});

test('a port may be called like a node', WITH_PROGRAM, async () => {
  const edges = [
    { id: 'a', sources: ['b'], targets: ['a'] },
    { id: 'e', source: 'a', sourcePort: 'b', target: 'b' },
  ];
  const placed = await layout(namesakes(edges));
  const [a, b] = placed.children;
  assert.deepEqual(a.ports.map(({ id }) => id), ['a', 'b']);
  const [, fromPort] = placed.edges;
  assert.deepEqual([fromPort.source, fromPort.sourcePort, fromPort.target], ['a', 'b', 'b']);
  const [section] = fromPort.sections;
  assert.deepEqual([section.incomingShape, section.outgoingShape], ['b', 'b']);
  assert.equal(section.startPoint.x, a.x + a.width + 8);
  assert.equal(section.endPoint.x, b.x);
  const { incomingShape, outgoingShape } = placed.edges[0].sections[0];
  assert.deepEqual([incomingShape, outgoingShape], ['b', 'a']);
});

test('a refusal names the caller\'s element', WITH_PROGRAM, async () => {
  const graph = namesakes([]);
  graph.children[0].ports[1].width = -1;
  const path = 'children[0].ports[1].width';
  await assert.rejects(layout(graph), { name: 'OutOfRange', id: 'b', path, found: -1, message: /size of "b" is/ });
  const across = [box('c', { children: [box('d')] })];
  const layoutOptions = { 'elk.hierarchyHandling': 'SEPARATE_CHILDREN' };
  const many = { ...namesakes([{ id: 'many', sources: ['a'], targets: ['b', 'd'] }]), layoutOptions };
  many.children.push(...across);
  await assert.rejects(layout(many), { name: 'CrossLevel', id: 'many', path: 'edges[0]', message: /edge "many" joins .* and "d" in "c"/ });
});

test('options count under any clear name, and in properties', WITH_PROGRAM, async () => {
  const graph = (options) => ({ id: 'r', ...options, children: [box('a'), box('b')], edges: [{ id: 'e', source: 'a', target: 'b' }] });
  const gap = async (options) => {
    const { children: [a, b] } = await layout(graph(options));
    return [b.x - a.x - a.width, b.y - a.y - a.height];
  };
  assert.deepEqual(await gap({ layoutOptions: { nodeNodeBetweenLayers: 70 } }), [70, -40]);
  assert.deepEqual(await gap({ properties: { 'spacing.nodeNodeBetweenLayers': 70 } }), [70, -40]);
  assert.deepEqual(await gap({ properties: { direction: 'DOWN', nodeNode: 1 }, layoutOptions: { algorithm: 'layered' } }), [-60, 20]);
  // Several options end so.
  assert.deepEqual(await gap({ layoutOptions: { strategy: 'NO_SUCH' } }), [20, -40]);
});
