'use strict';

const assert = require('node:assert/strict');
const { readFileSync } = require('node:fs');
const path = require('node:path');
const test = require('node:test');
const ELK = require('../src/elk');
const { WITH_MODULE } = require('./helpers/module');
const { PROGRAM, replyOf, run, TOP, WITH_PROGRAM } = require('./helpers/program');

const PUPPET = path.join(__dirname, 'helpers', 'puppet');

const example = (name) => JSON.parse(readFileSync(path.join(TOP, 'examples', `${name}.json`), 'utf8'));

/** The graph without labels, which take room. */
const unlabelled = (graph) => JSON.parse(JSON.stringify(graph, (key, value) => (key === 'labels' ? undefined : value)));

/** A test that lays graphs out, by the native program and by the module. */
function drawn(name, use) {
  const engines = [
    ['the program', { program: PROGRAM }, WITH_PROGRAM],
    ['the module', {}, WITH_MODULE],
  ];
  for (const [engine, how, skip] of engines) {
    test(`${name}: ${engine}`, skip, async (t) => {
      const made = [];
      await use((given) => {
        made.push(new ELK({ ...how, ...given }));
        return made.at(-1);
      }, t);
      made.forEach((elk) => elk.terminateWorker());
    });
  }
}

/** Freezes a graph whole, so that whoever writes into it fails. */
function frozen(value) {
  if (typeof value === 'object' && value !== null) {
    Object.values(value).forEach(frozen);
    Object.freeze(value);
  }
  return value;
}

const pair = (edge = {}, options = {}) => ({
  id: 'r',
  layoutOptions: options,
  children: [
    { id: 'a', width: 30, height: 30 },
    { id: 'b', width: 30, height: 30 },
  ],
  edges: [{ id: 'e', sources: ['a'], targets: ['b'], ...edge }],
});

test('the class is had in every way in which elkjs is', async () => {
  const module = await import('../src/elk.js');
  assert.equal(module.default, ELK);
  assert.equal(module.ELK, ELK);
  assert.equal(ELK.ELK, ELK);
  assert.equal(ELK.default, ELK);
  assert.equal(new ELK({ algorithms: ['layered'] }) instanceof ELK, true);
  assert.throws(() => new ELK({ numbers: 'round' }), /'ceil' or 'exact', not "round"/);
});

test('what is known needs no program', async () => {
  const elk = new ELK({ program: '/no/such/program' });
  const [options, algorithms, categories] = await Promise.all([
    elk.knownLayoutOptions(),
    elk.knownLayoutAlgorithms(),
    elk.knownLayoutCategories(),
  ]);
  assert.deepEqual(
    algorithms.map(({ id }) => id),
    ['org.eclipse.elk.layered', 'org.eclipse.elk.box'],
  );
  const known = options.map(({ id }) => id);
  for (const { knownOptions, category } of algorithms) {
    assert.deepEqual(knownOptions.filter((id) => !known.includes(id)), []);
    assert.ok(categories.some(({ id }) => id === category));
  }
  options[0].id = 'changed';
  assert.notEqual((await elk.knownLayoutOptions())[0].id, 'changed');
});

test('a call without a graph, or with one that is no JSON, fails alone', async (t) => {
  const elk = new ELK({ program: PUPPET });
  t.after(() => elk.terminateWorker());
  await assert.rejects(elk.layout(), /Missing mandatory parameter 'graph'/);
  const round = {};
  round.children = [round];
  await assert.rejects(elk.layout(round), { rule: 6, name: 'TooDeep' });
  await assert.rejects(elk.layout({ id: 1n }), { name: 'TypeError', path: 'id' });
  assert.equal((await elk.layout({ id: 'on' })).id, 'on');
});

test('a reply that is no answer, or none at all, rejects the call', async (t) => {
  const elk = new ELK({ program: PUPPET });
  t.after(() => elk.terminateWorker());
  await assert.rejects(elk.layout({ id: 'say nonsense' }), { name: 'ProgramError', message: /no answer: nonsense/ });
  await assert.rejects(elk.layout({ id: 'kill' }), { name: 'ProgramError', signal: 'SIGKILL' });
  const later = { rule: 99, name: 'Later', id: 'x', message: 'the document is refused (rule 99, Later)' };
  await assert.rejects(elk.layout({ id: `say ${JSON.stringify({ fault: later })}` }), later);
  await assert.rejects(elk.layout({ id: 'say {"fault":{"rule":null,"message":"too new"}}' }), { name: 'ProgramError', message: /too new/ });
  await assert.rejects(elk.layout({ id: 'say {"warnings":[]}' }), { name: 'ProgramError', message: /no answer: \{"warnings"/ });
  assert.equal((await elk.layout({ id: 'on' })).id, 'on');
});

test('an ended worker fails what waits, and a later call starts it again', async (t) => {
  const elk = new ELK({ program: PUPPET });
  t.after(() => elk.terminateWorker());
  elk.terminateWorker();
  const waiting = elk.layout({ id: 'never' });
  elk.terminateWorker();
  await assert.rejects(waiting, { name: 'ProgramError', message: /terminateWorker/ });
  assert.equal((await elk.layout({ id: 'on' })).id, 'on');
});

test('a graph is taken when the call is made', async (t) => {
  const elk = new ELK({ program: PUPPET });
  t.after(() => elk.terminateWorker());
  const graph = { id: 'first', children: [{ id: 'a' }] };
  const call = elk.layout(graph);
  graph.id = 'second';
  graph.children.pop();
  assert.deepEqual(await call, { id: 'first', children: [{ id: 'a' }] });
});

drawn('a graph is placed as the program places it, and the answer is judged right', async (made) => {
  for (const name of ['diagram', 'circuit', 'labels', 'spaced']) {
    const graph = unlabelled(example(name));
    // Parts are moved into other rows than those of the program.
    graph.layoutOptions = { ...graph.layoutOptions, 'elk.separateConnectedComponents': false };
    const placed = await made().layout(graph);
    const plain = JSON.parse(run(['layout'], JSON.stringify(replyOf({ graph, give: ['document'] }).document)).stdout);
    for (const part of ['x', 'y', 'width', 'height', 'layering']) {
      assert.deepEqual(placed[part], plain[part], part);
    }
    assert.deepEqual(
      placed.children.map(({ x, y }) => [x, y]),
      plain.children.map(({ x, y }) => [x, y]),
    );
    assert.equal(run(['check'], JSON.stringify(placed)).stdout, 'yes\n');
  }
});

drawn('the given graph stays as it is, and the result shares what is not drawn', async (made) => {
  const graph = example('diagram');
  graph.children[0].data = { onClick: () => {}, zoom: 1.5 };
  graph.children[0].labels = [{ text: 'label', width: 10.5 }];
  graph.edges[0].junctionPoints = [{ x: 1, y: 1 }];
  graph.edges[0].bendPoints = [{ x: 1, y: 1 }];
  const placed = await made().layout(frozen(graph));
  assert.equal(placed.children[0].data, graph.children[0].data);
  assert.deepEqual(placed.children[0].labels, [{ text: 'label', x: 0, y: 0, width: 10.5, height: 0 }]);
  assert.deepEqual(graph.edges[0].junctionPoints, [{ x: 1, y: 1 }]);
  assert.deepEqual(Object.keys(placed.edges[0]).sort(), ['container', 'id', 'sections', 'sources', 'targets']);
});

drawn('edges tell their ends and to what their points are relative', async (made) => {
  const graph = example('diagram');
  // Declared at the root, an edge within a box belongs to the box all the same.
  graph.edges.push(...graph.children[1].edges.splice(0));
  const { edges } = await made().layout(graph);
  assert.deepEqual(
    edges.map(({ id, container, sections: [{ incomingShape, outgoingShape }] }) => [id, container, incomingShape, outgoingShape]),
    [
      ['in', 'diagram', 'source.out', 'filters'],
      ['out', 'diagram', 'filters', 'sink'],
      ['back', 'diagram', 'sink', 'filters'],
      ['low-high', 'filters', 'low', 'high'],
    ],
  );
  assert.deepEqual(edges[0].sections[0].id, 'in_s0');
});

drawn('options of a call stand in place of the constructor\'s, and below an element\'s own', async (made) => {
  const down = { 'elk.direction': 'DOWN' };
  const isBelow = ({ children: [a, b] }) => b.y > a.y && b.x === a.x;
  const elk = made({ defaultLayoutOptions: down });
  assert.equal(isBelow(await elk.layout(pair())), true);
  assert.equal(isBelow(await elk.layout(pair(), { layoutOptions: {} })), false);
  assert.equal(isBelow(await elk.layout(pair({}, { direction: 'RIGHT' }))), false);
  assert.equal(isBelow(await made().layout(pair(), { layoutOptions: down })), true);
  assert.deepEqual((await elk.layout(pair())).layoutOptions, {});
});

drawn('the time and the program are reported if they are asked for', async (made) => {
  const elk = made();
  assert.equal('logging' in (await elk.layout(pair())), false);
  const { logging } = await elk.layout(pair(), { measureExecutionTime: true, logging: true });
  assert.ok(logging.executionTime > 0 && logging.executionTime < 60);
  assert.deepEqual({ ...logging, executionTime: 0 }, { name: 'elk-draw', executionTime: 0, logs: [], children: [] });
});

drawn('the result has junction points where edges of one port part', async (made) => {
  const { edges } = await made().layout(example('circuit'));
  const told = edges.filter((edge) => edge.junctionPoints).map(({ id, junctionPoints }) => [id, junctionPoints.length]);
  // Four nets of the circuit have two ends each.
  assert.deepEqual(Object.fromEntries(told), { n1: 1, n3: 1, n5: 1, n7: 1 });
});

drawn('fractions are rounded by default, and refused if numbers are to be exact', async (made) => {
  const graph = pair();
  Object.assign(graph.children[0], { width: 30.2, x: 7.25 });
  const placed = await made().layout(graph);
  assert.deepEqual([placed.children[0].width, placed.children[0].height], [31, 30]);
  assert.equal(graph.children[0].width, 30.2);
  await assert.rejects(made({ numbers: 'exact' }).layout(graph), {
    rule: 2,
    name: 'NotWhole',
    id: undefined,
    message: 'a number is not whole: children[0].width is 30.2 (rule 2, NotWhole)',
  });
});

drawn('spacings and paddings are drawn as if they were rounded up', async (made) => {
  const placesWith = async (layoutOptions, general) => {
    const placed = await made().layout(pair({}, layoutOptions), { layoutOptions: general });
    return [placed, ...placed.children].map(({ x, y, width, height }) => ({ x, y, width, height }));
  };
  const between = 'elk.layered.spacing.nodeNodeBetweenLayers';
  const fractions = { [between]: 30.2, 'elk.padding': '[top=10.5,left=3]', 'elk.edgeRouting': 'POLYLINE' };
  const whole = { ...fractions, [between]: 31, 'elk.padding': '[top=11,left=3]' };
  const expected = await placesWith(whole);
  assert.deepEqual(await placesWith(fractions), expected);
  assert.deepEqual(await placesWith({}, fractions), expected);
});

drawn('a hundred calls at once are answered in order', async (made) => {
  const elk = made();
  const order = { drawn: [], refused: [] };
  const calls = Array.from({ length: 100 }, async (_, at) => {
    const graph = pair();
    graph.children[0].width = at;
    try {
      const placed = await elk.layout(at % 9 === 0 ? pair({ targets: ['nobody'] }) : graph);
      return placed.children[0].width;
    } catch ({ name }) {
      return name;
    } finally {
      order[at % 9 === 0 ? 'refused' : 'drawn'].push(at);
    }
  });
  const answers = await Promise.all(calls);
  // A refusal comes later, because the program is asked for the warnings then.
  const inOrder = (list) => list.slice().sort((one, other) => one - other);
  Object.values(order).forEach((list) => assert.deepEqual(list, inOrder(list)));
  assert.deepEqual(answers, [...answers.keys()].map((at) => (at % 9 === 0 ? 'UnknownEnd' : at)));
});

const many = (length, make) => Array.from({ length }, (_, at) => make(at));

const nested = (depth) => ({ id: depth, children: depth > 0 ? [nested(depth - 1)] : [] });

const port = (place) => ({
  id: 'r',
  children: [{ id: 'a', width: 50, height: 50, layoutOptions: { portConstraints: 'FIXED_POS' }, ports: [{ id: 'p', ...place }] }],
});

const REFUSED = [
  [1, 'NotJson', undefined, /is not JSON: id: a string has half/, { id: '\ud800' }],
  [6, 'TooDeep', undefined, /more than 50 levels/, nested(70)],
  [2, 'NotWhole', undefined, /: children\[1\]\.id is 1\.5 \(rule/, { children: [{ id: 1 }, { id: 1.5 }] }],
  [2, 'NotWhole', undefined, /layoutOptions\["elk\.layered\.effort"\] is 2\.5/, pair({}, { 'elk.layered.effort': 2.5 })],
  [2, 'NotWhole', undefined, /layoutOptions\["elk\.spacing\.nodeNode"\] is -2\.5/, pair({}, { 'elk.spacing.nodeNode': -2.5 })],
  [3, 'BadShape', undefined, /wrong kind of value/, { children: {} }],
  [3, 'BadShape', undefined, /wrong kind of value/, 5],
  [4, 'OutOfRange', 'a', /^a size of "a" is not from 0 to 2\^20/, { children: [{ id: 'a', width: -1 }] }],
  [5, 'TooMany', undefined, /more than 2,048 nodes/, { children: many(2048, (id) => ({ id })) }],
  [6, 'TooDeep', undefined, /more than 50 levels/, nested(52)],
  [7, 'DoubleId', 1, /^the id 1 is used twice/, { children: [{ id: 1 }, { id: '1' }, { id: 1 }] }],
  [8, 'UnknownEnd', 'e', /^the edge "e" has an end that is not a node/, pair({ targets: ['nobody'] })],
  [9, 'Hyperedge', 'e', /several sources and several targets/, pair({ sources: ['a', 'b'], targets: ['a', 'b'] })],
  [9, 'Hyperedge', 'e', /not have exactly one source and one target/, pair({ targets: [] })],
  [10, 'CrossLevel', 'e', /^the edge "e" joins nodes of two levels: its target is the whole document/, pair({ targets: ['r'] }, { hierarchyHandling: 'SEPARATE_CHILDREN' })],
  [11, 'OptionValue', 'r', /^an option of "r" has an invalid value/, pair({}, { algorithm: 'stress' })],
  [11, 'OptionValue', undefined, /^an option of an element without an id/, { layoutOptions: { direction: 'ASIDE' } }],
  [12, 'PortInside', 'p', /^the port "p" touches no side of its node/, port({ x: 20, y: 20, width: 5, height: 5 })],
  [3, 'BadShape', undefined, /wrong kind/, { children: [{ id: 'é "quoted" \n😀', ports: [{ id: 'x', x: null }] }] }],
  [4, 'OutOfRange', 'é "quoted" \n😀', /"é \\"quoted\\" \\n😀"/, { children: [{ id: 'é "quoted" \n😀', width: -1 }] }],
];

drawn('refusals tell the rule, the name, the id and what is wrong', async (made) => {
  const elk = made();
  for (const [rule, name, id, message, graph] of REFUSED) {
    await assert.rejects(elk.layout(graph), (error) => {
      assert.ok(error instanceof ELK.Refusal, String(error));
      assert.deepEqual([error.rule, error.name, error.id], [rule, name, id]);
      assert.match(error.message, message);
      return true;
    });
  }
  assert.equal((await elk.layout(pair())).width > 0, true);
});

drawn('a document that is too long is refused', async (made) => {
  const graph = { id: 'x'.repeat(2 ** 24) };
  await assert.rejects(made().layout(graph), { rule: 0, name: 'TooLong', message: /longer than 2\^24 bytes/ });
});
