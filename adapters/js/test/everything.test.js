'use strict';
// Documents with everything at once, drawn at random, judged by what shares no code with what draws them.

const assert = require('node:assert/strict');
const test = require('node:test');
const { faultsOfDrawing } = require('./helpers/every-fault');
const { everything } = require('./helpers/everything');
const { quietLayout: layout } = require('./helpers/layout');
const { WITH_PROGRAM } = require('./helpers/program');
const { smallest } = require('./helpers/smallest');

const SEEDS = 12;

const leaf = (id, width, height, more) => ({ id, width, height, ...more });
const group = (id, children, more) => ({ id, children, ...more });
const edge = (source, target) => ({ id: `${source} to ${target}`, sources: [source].flat(), targets: [target].flat() });
const port = (id, more) => ({ id, width: 0, height: 0, ...more });
const label = (width, height, placement) => ({ width, height, ...(placement && { layoutOptions: { 'elk.nodeLabels.placement': placement } }) });
const GROWN = { 'elk.nodeSize.constraints': 'NODE_LABELS PORTS PORT_LABELS', 'elk.portLabels.placement': 'INSIDE' };

// Small documents of which a drawing had a fault once.
const SMALL = {
  'labels inside, at a port of a group that leads to the left': {
    layoutOptions: { 'elk.direction': 'LEFT' },
    children: [
      group('b', [group('c', [leaf('a', 40, 41)], { layoutOptions: GROWN, ports: [port('p', { labels: [label(7, 15), label(7, 15)] })] })]),
      group('d', [group('e', [leaf('f', 20, 60)])]),
    ],
    edges: [edge('f', 'a')],
  },
  'a label inside, at a port across the direction of a group': {
    children: [
      group('c', [leaf('a', 100, 20)], {
        layoutOptions: { ...GROWN, 'elk.portConstraints': 'FIXED_SIDE' },
        ports: [port('p', { layoutOptions: { 'elk.port.side': 'NORTH' }, labels: [label(40, 20)] })],
      }),
    ],
    edges: [edge('a', 'p')],
  },
  'a label inside, at a port of the outermost level, where edges cross a group': {
    layoutOptions: { 'elk.portLabels.placement': 'INSIDE' },
    children: [group('c', [leaf('a', 80, 20)]), leaf('b', 40, 60)],
    ports: [{ id: 'p', width: 0, height: 20, labels: [label(20, 20)] }],
    edges: [edge('a', 'b')],
  },
  'labels in the middle row of a group that edges cross': {
    children: [
      group('a', [{ id: 'b' }, leaf('d', 20, 40)]),
      group('e', [leaf('f', 40, 60), leaf('g', 40, 40)]),
      group('c', [group('h', [leaf('i', 100, 40)], { labels: [label(40, 12.25, 'INSIDE V_CENTER H_LEFT'), label(3.125, 9.25, 'INSIDE V_CENTER H_LEFT')] })]),
      leaf('j', 40, 20),
    ],
    edges: [edge('j', 'c'), edge('b', 'i'), edge('i', 'g'), edge('f', 'j')],
  },
  'labels in the first row of a group that leads up': {
    children: [
      group('c', [group('d', [leaf('a', 36, 60)])], {
        layoutOptions: { 'elk.direction': 'UP' },
        labels: [label(80, 8, 'INSIDE V_TOP H_CENTER'), label(67, 20, 'INSIDE V_TOP H_LEFT')],
      }),
    ],
    edges: [edge('a', 'c')],
  },
  'two labels at the left of a group that grows for them': {
    layoutOptions: { 'elk.direction': 'LEFT' },
    children: [
      group('c', [leaf('a', 40, 30)]),
      group('d', [leaf('b', 40, 30)], {
        layoutOptions: { 'elk.nodeSize.constraints': 'NODE_LABELS' },
        labels: [label(30, 12, 'INSIDE V_CENTER H_LEFT'), label(120, 12, 'INSIDE V_CENTER H_LEFT')],
      }),
    ],
    edges: [edge('b', 'a')],
  },
  'a label of a leaf beside one of its pinned port': {
    children: [
      leaf('a', 40, 60, {
        layoutOptions: { ...GROWN, 'elk.portConstraints': 'FIXED_POS' },
        ports: [port('p', { labels: [label(30, 24)] })],
        labels: [label(4, 20, 'INSIDE V_TOP H_CENTER')],
      }),
    ],
  },
  'a label of a group beside one of its pinned port': {
    children: [
      group('c', [{ id: 'a' }], {
        layoutOptions: { ...GROWN, 'elk.portConstraints': 'FIXED_POS' },
        ports: [port('p', { layoutOptions: { 'elk.port.side': 'WEST' }, labels: [label(20, 9)] })],
        labels: [label(4, 20, 'INSIDE V_TOP H_LEFT')],
      }),
    ],
  },
  'a label outside, beside a port that is longer than its side': {
    children: [leaf('a', 20, 0, { ports: [{ id: 'p', width: 20, height: 20 }], labels: [label(40, 20, 'OUTSIDE V_TOP H_CENTER')] })],
  },
  'an edge with sources in two groups, in a graph without an id': {
    id: undefined,
    children: [group('c', [leaf('a', 100, 20, { ports: [port('p')] }), leaf('b', 100, 20), leaf('d', 100, 20)]), leaf('x', 20, 20)],
    edges: [edge(['p', 'x'], 'b'), edge('d', 'p')],
  },
  'an edge whose targets lie at one point': {
    layoutOptions: { 'elk.direction': 'DOWN' },
    children: [leaf('a', 0, 60, { ports: [port('p')] }), { id: 'b' }, { id: 'd' }],
    edges: [edge('d', ['a', 'b', 'p'])],
  },
};

for (const [name, graph] of Object.entries(SMALL)) {
  test(`drawn without a fault: ${name}`, WITH_PROGRAM, async () => {
    const given = JSON.parse(JSON.stringify({ id: 'r', ...graph }));
    assert.deepEqual(faultsOfDrawing(given, await layout(given)), []);
  });
}

test(`${SEEDS} documents with everything at once are drawn without a fault`, { ...WITH_PROGRAM, timeout: 240_000 }, async () => {
  for (let seed = 1; seed <= SEEDS; seed += 1) {
    const graph = everything(seed);
    const before = JSON.stringify(graph);
    assert.deepEqual(faultsOfDrawing(graph, await layout(graph)), [], `document ${seed}`);
    assert.equal(JSON.stringify(graph), before, `document ${seed} is written into`);
  }
});
