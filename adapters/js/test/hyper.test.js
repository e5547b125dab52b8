'use strict';

const assert = require('node:assert/strict');
const test = require('node:test');
const ELK = require('../src/elk');
const { PROGRAM, WITH_PROGRAM } = require('./helpers/program');

async function placedEdges(edges, options = {}) {
  const elk = new ELK({ program: PROGRAM });
  const children = ['a', 'b', 'c', 'd'].map((id) => ({ id, width: 30, height: 30 }));
  const placed = await elk.layout({ id: 'r', layoutOptions: options, children, edges });
  elk.terminateWorker();
  return placed;
}

const isSame = (one, other) => one.x === other.x && one.y === other.y;

const pointOf = ({ x, y }) => `${x} ${y}`;

/** Whether sections follow one another without a gap, all from one that none comes before. */
function assertTree({ sections }, stem, twigs) {
  const byId = new Map(sections.map((section) => [section.id, section]));
  const [towards, away] = stem.at === 'source' ? ['incoming', 'outgoing'] : ['outgoing', 'incoming'];
  const [before, after] = [`${towards}Sections`, `${away}Sections`];
  const [begin, end] = stem.at === 'source' ? ['startPoint', 'endPoint'] : ['endPoint', 'startPoint'];
  const roots = sections.filter((section) => !section[before]);
  assert.deepEqual(roots.map((root) => root[`${towards}Shape`]), [stem.id]);
  assert.deepEqual(
    sections.filter((section) => !section[after]).map((section) => section[`${away}Shape`]).sort(),
    twigs,
  );
  for (const section of sections) {
    for (const id of section[after] ?? []) {
      assert.deepEqual(byId.get(id)[before], [section.id]);
      assert.ok(isSame(section[end], byId.get(id)[begin]));
    }
  }
}

test('an edge of one source and many targets has a tree of sections', WITH_PROGRAM, async () => {
  for (const direction of ['RIGHT', 'LEFT', 'DOWN', 'UP']) {
    const { edges, layering } = await placedEdges([{ id: 'e', sources: ['a'], targets: ['b', 'c', 'd'] }], { direction });
    assert.equal(edges.length, 1);
    assertTree(edges[0], { at: 'source', id: 'a' }, ['b', 'c', 'd']);
    assert.equal(layering, undefined);
  }
});

test('an edge of many sources and one target has one too', WITH_PROGRAM, async () => {
  const { edges } = await placedEdges([{ id: 7, sources: ['a', 'b', 'c'], targets: ['d'] }]);
  assertTree(edges[0], { at: 'target', id: 'd' }, ['a', 'b', 'c']);
  assert.ok(edges[0].sections.every(({ id }, at) => id === `7_s${at}`));
});

test('its junction points are where its sections meet, under all routings', WITH_PROGRAM, async () => {
  for (const edgeRouting of ['ORTHOGONAL', 'POLYLINE', 'SPLINES']) {
    const given = [
      { id: 'e', sources: ['a'], targets: ['b', 'c', 'd'] },
      { id: 'f', sources: ['b', 'c'], targets: ['d'] },
    ];
    const { edges, children } = await placedEdges(given, { edgeRouting });
    for (const { sections, junctionPoints, sources, targets } of edges) {
      const meetings = sections.flatMap((section) => [
        ...(section.outgoingSections?.length > 1 ? [pointOf(section.endPoint)] : []),
        ...(section.incomingSections?.length > 1 ? [pointOf(section.startPoint)] : []),
      ]);
      assert.deepEqual(junctionPoints.map(pointOf).sort(), meetings.sort(), edgeRouting);
      assert.ok(sources.length + targets.length > 2);
    }
    assert.deepEqual(children.map(({ ports }) => ports), [undefined, undefined, undefined, undefined]);
  }
});

test('an edge with very many targets is split as one with few', WITH_PROGRAM, async () => {
  const elk = new ELK({ program: PROGRAM });
  const targets = Array.from({ length: 400 }, (_, at) => `t${at}`);
  const children = ['s', ...targets].map((id) => ({ id, width: 10, height: 10 }));
  const begun = performance.now();
  const { edges } = await elk.layout({ id: 'r', children, edges: [{ id: 'e', sources: ['s'], targets }] });
  const seconds = (performance.now() - begun) / 1000;
  elk.terminateWorker();
  assertTree(edges[0], { at: 'source', id: 's' }, targets.sort());
  // Each point at which sections meet has one way more behind it than before it.
  const ends = edges[0].sections.filter(({ outgoingSections }) => outgoingSections);
  assert.equal(edges[0].junctionPoints.length, ends.length);
  assert.ok(seconds < 10, `${seconds} seconds`);
});

test('several sources with several targets are refused in plain words', WITH_PROGRAM, async () => {
  await assert.rejects(placedEdges([{ id: 'e', sources: ['a', 'b'], targets: ['c', 'd'] }]), {
    name: 'Hyperedge',
    id: 'e',
    message: /make an edge for each source, with all its targets/,
  });
});
