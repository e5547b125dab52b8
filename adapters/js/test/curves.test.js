'use strict';
// Slanted and curved routes, judged at points along them.

const assert = require('node:assert/strict');
const test = require('node:test');
const { toSvg } = require('../src/svg');
const { acrossBorders } = require('./helpers/across');
const { chance } = require('./helpers/chance');
const { curvesJudged } = require('./helpers/curve-faults');
const { labelFaults, labelled } = require('./helpers/labelled');
const { quietLayout } = require('./helpers/layout');
const { WITH_PROGRAM } = require('./helpers/program');

// ELK_SEEDS documents of each kind.
const SEEDS = Number(process.env.ELK_SEEDS ?? 12);

const ROUTINGS = ['POLYLINE', 'SPLINES'];

const leaf = (id, more) => ({ id, width: 40, height: 30, ...more });
const edge = (id, source, target, more) => ({ id, sources: [source], targets: [target], ...more });

const layout = (graph, layoutOptions) => quietLayout(graph, { call: { layoutOptions } });

const routed = (graph, routing) => layout(graph, { 'elk.edgeRouting': routing });

/** A flat graph with cycles, loops and ports at all sides. */
function flat(seed) {
  const { below, from, is, of } = chance(seed);
  const port = (id, side) => ({ id: `${id}.${side}`, width: 4, height: 4, layoutOptions: { 'elk.port.side': side } });
  const ports = (id) => ['NORTH', 'EAST', 'SOUTH', 'WEST'].map((side) => port(id, side));
  const children = Array.from({ length: from(5, 25) }, (_, id) => ({
    ...{ id, width: from(20, 90), height: from(20, 60) },
    ...(is(0.3) && { ports: ports(id), layoutOptions: { 'elk.portConstraints': 'FIXED_SIDE' } }),
  }));
  const end = () => {
    const { id, ports: own } = of(children);
    return own ? own[below(4)].id : id;
  };
  const edges = Array.from({ length: children.length * 2 }, (_, id) => edge(id, end(), end()));
  const layoutOptions = { 'elk.direction': of(['RIGHT', 'DOWN', 'LEFT', 'UP']), 'elk.separateConnectedComponents': is(0.3) };
  return { id: 'r', layoutOptions, children, edges };
}

/** A graph of several connected parts, whose layers stand at different places. */
function inParts(seed) {
  const { below, from, of } = chance(seed);
  const [children, edges] = [[], []];
  for (let part = from(2, 5); part > 0; part -= 1) {
    const [first, count] = [children.length, from(3, 9)];
    for (let id = first; id < first + count; id += 1) {
      children.push({ id, width: from(20, 160), height: from(20, 160) });
    }
    for (let k = 1; k < count * 1.5; k += 1) {
      const [source, target] = k < count ? [below(k), k] : [below(count), below(count)];
      edges.push(edge(edges.length, first + source, first + target));
    }
  }
  const layoutOptions = { 'elk.direction': of(['RIGHT', 'DOWN', 'LEFT', 'UP']), 'elk.separateConnectedComponents': true };
  return { id: 'r', layoutOptions, children, edges };
}

const KINDS = [
  ['flat graphs', flat, (seed) => seed],
  ['graphs of several parts', inParts, (seed) => seed],
  ['nested graphs with edges across borders', acrossBorders, (seed) => 30000 + seed],
];

for (const [kind, make, seedOf] of KINDS) {
  test(`slanted and curved routes of ${kind} enter no foreign box`, WITH_PROGRAM, async () => {
    for (const routing of ROUTINGS) {
      let bent = 0;
      for (let seed = 1; seed <= SEEDS; seed += 1) {
        const verdict = curvesJudged(await routed(make(seedOf(seed)), routing));
        assert.deepEqual(verdict.faults, [], `document ${seed}, ${routing}`);
        bent += verdict.bent;
      }
      assert.ok(bent > SEEDS * 5, `${bent} routes`);
    }
  });
}

test('curves cross about as often as the lines of which they are made', WITH_PROGRAM, async () => {
  const sums = { ORTHOGONAL: 0, POLYLINE: 0, SPLINES: 0 };
  for (let seed = 1; seed <= 2 * SEEDS; seed += 1) {
    for (const routing of Object.keys(sums)) {
      const spaced = { 'elk.layered.spacing.nodeNodeBetweenLayers': 50, 'elk.edgeRouting': routing };
      sums[routing] += curvesJudged(await layout(flat(seed), spaced)).crossings;
    }
  }
  assert.ok(sums.SPLINES <= sums.ORTHOGONAL * 1.1 && sums.POLYLINE <= sums.ORTHOGONAL * 1.25, JSON.stringify(sums));
});

test('labels keep clear of slanted and curved routes', WITH_PROGRAM, async () => {
  for (const routing of ROUTINGS) {
    for (let seed = 1; seed <= SEEDS; seed += 1) {
      const placed = await routed(labelled(seed), routing);
      // The labels of loops aside, which are judged as lines elsewhere.
      const faults = labelFaults(placed).filter((fault) => !/meets the edge/.test(fault));
      assert.deepEqual(faults, [], `document ${seed}, ${routing}`);
      assert.deepEqual(curvesJudged(placed).faults, [], `document ${seed}, ${routing}`);
    }
  }
});

test('points are as in ELK: bends of slanted routes, control points of curves', WITH_PROGRAM, async () => {
  const children = [leaf('a', { height: 90 }), leaf('b'), leaf('c'), leaf('d')];
  const edges = [edge('ab', 'a', 'b'), edge('ac', 'a', 'c'), edge('ad', 'a', 'd'), { id: 'h', sources: ['b'], targets: ['c', 'd'] }];
  const graph = { id: 'r', children, edges };
  const { edges: lines } = await routed(graph, 'POLYLINE');
  const { edges: curves } = await routed(graph, 'SPLINES');
  assert.deepEqual([lines[0].routing, curves[0].routing], ['POLYLINE', 'SPLINES']);
  for (const { sections } of curves) {
    const counts = sections.map(({ bendPoints = [] }) => bendPoints.length);
    assert.ok(counts.every((count) => count === 0 || count % 3 === 2), `${counts}`);
  }
  const isSlanted = ({ sections: [{ startPoint: p, bendPoints: [q] = [] }] }) => q && p.x !== q.x && p.y !== q.y;
  const isDirect = ({ sections: [{ startPoint: p, endPoint: q, bendPoints }] }) => !bendPoints && p.x !== q.x && p.y !== q.y;
  assert.ok(lines.some((it) => isSlanted(it) || isDirect(it)));
  assert.match(toSvg({ ...graph, ...(await routed(graph, 'SPLINES')) }), /<path d="M[^"]*C/);
  const again = await layout(await routed(graph, 'SPLINES'));
  assert.deepEqual(again.edges.map(({ routing }) => routing), [undefined, undefined, undefined, undefined]);
});

test('each level has a routing of its own, unless levels are laid out together', WITH_PROGRAM, async () => {
  const inner = { id: 'g', children: [leaf('a', { height: 90 }), leaf('b'), leaf('c')], edges: [edge('ab', 'a', 'b'), edge('ac', 'a', 'c')] };
  const graph = (options) => ({ id: 'r', layoutOptions: { 'elk.edgeRouting': 'SPLINES', ...options }, children: [inner, leaf('x')], edges: [edge('gx', 'g', 'x')] });
  const apart = await layout(graph({}));
  const together = await layout(graph({ 'elk.hierarchyHandling': 'INCLUDE_CHILDREN' }));
  const routings = ({ children: [{ edges: [{ routing }] }], edges: [outer] }) => [outer.routing, routing];
  assert.deepEqual([routings(apart), routings(together)], [['SPLINES', undefined], ['SPLINES', 'SPLINES']]);
  assert.deepEqual([apart.layering, apart.children[0].layering.span > 0], [undefined, true]);
});
