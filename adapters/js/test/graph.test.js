'use strict';
// What is sent of graphs, what stays with the package, and graphs that can't be sent.

const assert = require('node:assert/strict');
const test = require('node:test');
const ELK = require('../src/elk');
const { restored } = require('../src/graph/restored');
const { taken } = require('../src/graph/taken');
const { PROGRAM, WITH_PROGRAM } = require('./helpers/program');

const sentOf = (graph, how = {}) => JSON.parse(JSON.stringify(taken(graph, how).sent));

class Model {
  #secret = 1;
  name = 'model';
  toJSON() {
    return this.#secret;
  }
}

test('members that the program does not read are sent by their names alone', () => {
  const round = {};
  round.round = round;
  const node = { id: 'a', width: 30.5, data: round, model: new Model(), list: [0.5], call: () => 1, zoom: 1.5, big: 5n, text: 'own', selected: true };
  assert.deepEqual(sentOf({ id: 'r', children: [node] }), {
    id: 'r',
    children: [{ id: 'a', width: 30.5, data: {}, model: {}, list: [], zoom: true, text: 'own', selected: true }],
  });
});

test('with exact numbers all members are sent, and placed graphs have their routes', () => {
  const section = { id: 's', startPoint: { x: 0.5, y: 1 }, endPoint: { x: 2, y: 1 }, bendPoints: [{ x: 1, y: 1 }] };
  const graph = { id: 'r', own: [{ half: 0.5, call: () => 1 }], edges: [{ id: 'e', sections: [section] }] };
  assert.deepEqual(sentOf(graph, { isExact: true }), { ...graph, own: [{ half: 0.5 }] });
  assert.deepEqual(sentOf(graph, { isPlaced: true }).edges, graph.edges);
  assert.deepEqual(sentOf(graph).edges, [{ id: 'e', sections: [] }]);
});

test('a copy shares nothing that is written, and the rest with the given graph', () => {
  const graph = { children: [{ id: 1, ports: [{ id: 1 }], edges: [{ id: 2, bendPoints: [], own: {} }], data: () => 5, x: 7 }], [Symbol.for('own')]: 1 };
  const { kept } = taken(graph, {});
  assert.deepEqual(kept, graph);
  const edge = { id: 2, own: {}, sections: [] };
  const placed = restored(kept, { x: 0, y: 0, children: [{ id: 1, y: 9, ports: [{ id: 1, x: 3 }], edges: [edge], data: {} }] });
  assert.deepEqual(placed, {
    ...{ x: 0, y: 0, [Symbol.for('own')]: 1 },
    children: [{ id: 1, ports: [{ id: 1, x: 3 }], edges: [{ id: 2, own: {}, sections: [] }], data: graph.children[0].data, y: 9 }],
  });
  assert.equal(placed.children[0].edges[0].own, graph.children[0].edges[0].own);
  assert.deepEqual(Object.keys(graph.children[0]), ['id', 'ports', 'edges', 'data', 'x']);
});

test('names that objects inherit are names like others', () => {
  const graph = JSON.parse('{"id":"r","__proto__":{"x":1.5},"constructor":2,"layoutOptions":{"__proto__":"1"}}');
  assert.deepEqual(Object.keys(sentOf(graph)), ['id', '__proto__', 'constructor', 'layoutOptions']);
  assert.deepEqual(Object.keys(sentOf(graph).layoutOptions), ['__proto__']);
  assert.equal({}.x, undefined);
});

const revoked = () => {
  const { proxy, revoke } = Proxy.revocable({}, {});
  revoke();
  return proxy;
};

const fails = (error) => ({ get width() { throw error; } });

const round = (make) => {
  const graph = { id: 'r' };
  return Object.assign(graph, make(graph));
};

// Each with the error: its name, its path and its words.
const WRONG = {
  'a BigInt': [{ id: 'r', children: [{ id: 1n }] }, 'TypeError', 'children[0].id', /^children\[0\]\.id is 1n, and JSON has no BigInt$/],
  'a getter that fails': [{ children: [fails(new Error('gone'))] }, 'TypeError', 'children[0].width', /can't be read: gone/],
  'a getter that throws what is no error': [fails(undefined), 'TypeError', 'width', /can't be read: undefined/],
  'a getter whose error has a path': [fails(Object.assign(new Error('no file'), { path: '/etc' })), 'TypeError', 'width', /no file/],
  'a revoked proxy': [{ id: 'r', edges: [revoked()] }, 'TypeError', 'edges[0]', /can't be read: .*revoked/],
  'a size that is NaN': [{ children: [{ id: 'a', width: NaN }] }, 'BadShape', 'children[0].width', /\.width is NaN, and may be a number/],
  'an infinite spacing': [{ layoutOptions: { 'elk.spacing.nodeNode': Infinity } }, 'OptionValue', 'layoutOptions["elk.spacing.nodeNode"]', / is Infinity, and may be /],
  'a gap in a list': [{ id: 'r', children: [{ id: 'a' }, , { id: 'b' }] }, 'BadShape', 'children[1]', /children\[1\] is undefined, and may be an object/],
  'a list of 2^32 gaps': [{ id: 'r', children: new Array(2 ** 32 - 1) }, 'TooLong', 'children', /longer than 2\^24 bytes/],
  'a graph in itself': [round((graph) => ({ children: [{ id: 'a' }, graph, graph] })), 'TooDeep', /^children\[1\]\./, /nested more than 50 levels/],
  'options in themselves': [{ layoutOptions: { 'elk.direction': round((it) => ({ it })) } }, 'OptionValue', 'layoutOptions["elk.direction"]', /./],
  'half of a surrogate pair': [{ id: 'r', children: [{ id: 'a', labels: [{ text: '\ud83d' }] }] }, 'NotJson', 'children[0].labels[0].text', /half of a surrogate pair/],
};

for (const [what, [graph, name, at, words]] of Object.entries(WRONG)) {
  test(`a graph that can't be drawn is refused with a path: ${what}`, WITH_PROGRAM, async () => {
    const elk = new ELK({ program: PROGRAM, onWarning: () => {} });
    const error = await elk.layout(graph).then(() => assert.fail('it is drawn'), (it) => it);
    elk.terminateWorker();
    assert.equal(error.name, name, error.stack);
    assert.match(error.path, at instanceof RegExp ? at : new RegExp(`^${at.replace(/[[\]."]/g, '\\$&')}$`));
    assert.match(error.message, words);
  });
}
