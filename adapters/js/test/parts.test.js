'use strict';
// The parts of a level that no edges join, in rows of the shape that is asked for.

const assert = require('node:assert/strict');
const test = require('node:test');
const { chance } = require('./helpers/chance');
const { curvesJudged } = require('./helpers/curve-faults');
const { judged } = require('./helpers/drawing-faults');
const { labelFaults, labelled } = require('./helpers/labelled');
const { quietLayout: layout } = require('./helpers/layout');
const { WITH_PROGRAM, run } = require('./helpers/program');

const SEEDS = Number(process.env.ELK_SEEDS ?? 12);

const leaf = (id, more) => ({ id, width: 30, height: 30, ...more });
const edge = (source, target) => ({ id: `${source}${target}`, sources: [source], targets: [target] });

/** A graph of some parts, with loops, in some direction. */
function scattered(seed) {
  const { below, from, of } = chance(seed);
  const children = Array.from({ length: from(3, 25) }, (_, id) => ({ id, width: from(20, 90), height: from(20, 60) }));
  const end = () => [below(children.length)];
  const edges = Array.from({ length: below(children.length) }, (_, id) => ({ id, sources: end(), targets: end() }));
  return { id: 'r', layoutOptions: { 'elk.direction': of(['RIGHT', 'DOWN', 'LEFT', 'UP']) }, children, edges };
}

test('parts in rows are judged right by the engine, and by what shares no code with it', WITH_PROGRAM, async () => {
  for (let seed = 1; seed <= 4 * SEEDS; seed += 1) {
    const graph = scattered(seed);
    const { logging, ...placed } = await layout(graph);
    assert.deepEqual(judged(placed, graph).faults, [], `graph ${seed}`);
    const split = { ...placed, layoutOptions: { ...placed.layoutOptions, 'elk.separateConnectedComponents': true } };
    assert.equal(run(['check'], JSON.stringify(split)).stdout, 'yes\n', `graph ${seed}`);
  }
});

test('curves turn in the gaps of their own part', WITH_PROGRAM, async () => {
  for (let seed = 1; seed <= 8 * SEEDS; seed += 1) {
    for (const routing of ['POLYLINE', 'SPLINES']) {
      const placed = await layout(scattered(seed), { call: { layoutOptions: { 'elk.edgeRouting': routing } } });
      assert.deepEqual(curvesJudged(placed).faults, [], `graph ${seed}, ${routing}`);
    }
  }
});

test('nodes without edges stand in rows, behind the parts with edges', WITH_PROGRAM, async () => {
  const single = Array.from({ length: 40 }, (_, at) => leaf(at));
  const { children, width, height } = await layout({ id: 'r', children: [...single, leaf('a'), leaf('b')], edges: [edge('a', 'b')] });
  const rows = new Set(children.map(({ y }) => y));
  assert.ok(rows.size > 4 && rows.size < 8 && width / height > 1.3 && width / height < 2, `${rows.size} rows, ${width} by ${height}`);
  const [a, b] = children.slice(-2);
  assert.deepEqual([a.x, a.y, b.x, b.y], [12, 12, 62, 12]);
});

test('aspectRatio is the shape that parts fill', WITH_PROGRAM, async () => {
  const children = Array.from({ length: 36 }, (_, at) => leaf(at));
  for (const [ratio, low, high] of [[0.4, 0.2, 0.6], [1, 0.8, 1.2], [3, 2, 4], ['2', 1.5, 2.5], ['wide', 1.3, 2], [0, 1.3, 2]]) {
    const { width, height } = await layout({ id: 'r', layoutOptions: { 'elk.aspectRatio': ratio }, children });
    assert.ok(width / height > low && width / height < high, `${ratio}: ${width} by ${height}`);
  }
  const whole = await layout({ id: 'r', layoutOptions: { 'elk.separateConnectedComponents': false }, children });
  assert.equal(new Set(whole.children.map(({ x }) => x)).size, 1);
});

test('labels, curves and the least size of a graph go with its parts', WITH_PROGRAM, async () => {
  for (let seed = 1; seed <= SEEDS; seed += 1) {
    const graph = labelled(seed);
    graph.children.push(leaf('x'), leaf('y', { labels: [{ text: 'y', layoutOptions: { 'elk.nodeLabels.placement': 'OUTSIDE V_TOP H_CENTER' } }] }));
    for (const routing of ['ORTHOGONAL', 'SPLINES']) {
      const placed = await layout(graph, { call: { layoutOptions: { 'elk.edgeRouting': routing } } });
      const faults = labelFaults(placed).filter((fault) => routing === 'ORTHOGONAL' || !/meets the edge/.test(fault));
      assert.deepEqual(faults, [], `document ${seed}, ${routing}`);
    }
  }
  const least = { 'elk.nodeSize.constraints': 'MINIMUM_SIZE', 'elk.nodeSize.minimum': '(400, 300)' };
  const { width, height } = await layout({ id: 'r', layoutOptions: least, children: [leaf('a'), leaf('b'), leaf('c')] });
  assert.deepEqual([width, height], [400, 300]);
});

test('parts stand apart where edges cross borders as well', WITH_PROGRAM, async () => {
  const group = { id: 'g', children: [leaf('a'), leaf('b')] };
  const children = [group, leaf('c'), ...Array.from({ length: 12 }, (_, at) => leaf(at))];
  const graph = { id: 'r', children, edges: [edge('a', 'c'), edge('b', 'c')] };
  const placed = await layout(graph);
  assert.deepEqual(judged(placed, graph).faults, []);
  assert.ok(placed.width / placed.height > 1 && placed.width / placed.height < 2.5, `${placed.width} by ${placed.height}`);
});
