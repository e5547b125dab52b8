'use strict';

const assert = require('node:assert/strict');
const test = require('node:test');
const ELK = require('../src/elk');
const { PROGRAM, replyOf, WITH_PROGRAM } = require('./helpers/program');

const messages = (graph, { options = {} } = {}) => replyOf({ graph, options, give: ['graph', 'warnings'] }).warnings.map(({ message }) => message);

const withOption = (key) => ({ id: 'r', layoutOptions: { [key]: '1' } });

test('an option without effect is reported, with the name that was meant', WITH_PROGRAM, () => {
  for (const [key, message] of [
    ['elk.direction', undefined],
    ['org.eclipse.elk.direction', undefined],
    ['nodeNodeBetweenLayers', undefined],
    ['elk.directon', 'layoutOptions["elk.directon"] is not an option of ELK; did you mean "elk.direction"?'],
    ['direciton', 'layoutOptions.direciton is not an option of ELK; did you mean "direction"?'],
    ['elk.spacing.nodenode', 'layoutOptions["elk.spacing.nodenode"] is not an option of ELK; did you mean "elk.spacing.nodeNode"?'],
    ['elk.spacing.nodeNodeBetweenLayers', /not an option of ELK; did you mean "elk\.layered\.spacing\.nodeNodeBetweenLayers"\?$/],
    ['elk.layered.nodeNode', /not an option of ELK; did you mean "elk\.spacing\.nodeNode"\?$/],
    ['nodePlacment.strategy', /not an option of ELK; did you mean "layered\.nodePlacement\.strategy"\?$/],
    ['colour', 'layoutOptions.colour is not an option of ELK'],
    ['strategy', /^layoutOptions\.strategy may be elk\.layered\.nodePlacement\.strategy, .*, others; write one of them$/],
    ['elk.stress.epsilon', /^layoutOptions\["elk\.stress\.epsilon"\] has no effect, since this engine does not have/],
    ['elk.port.side', 'layoutOptions["elk.port.side"] has no effect, since it is an option of ports and is at a node'],
    ['constructor', 'layoutOptions.constructor is not an option of ELK'],
    ['__proto__', 'layoutOptions.__proto__ is not an option of ELK'],
  ]) {
    const [found] = messages(withOption(key));
    if (message instanceof RegExp) {
      assert.match(found, message, key);
    } else {
      assert.equal(found, message, key);
    }
  }
});

test('very many unknown options are reported in little time, each with what was meant', WITH_PROGRAM, () => {
  const names = Array.from({ length: 5000 }, (_, at) => `elk.directon${at % 2 ? '' : 'x'.repeat(4 + (at % 90))}${at}`);
  const begun = performance.now();
  const found = messages({ id: 'r', layoutOptions: Object.fromEntries(names.map((name) => [name, '1'])) });
  const seconds = (performance.now() - begun) / 1000;
  assert.equal(found.length, names.length);
  assert.ok(found.includes('layoutOptions["elk.directon1"] is not an option of ELK; did you mean "elk.direction"?'));
  assert.ok(found.some((message) => /xxxx0"\] is not an option of ELK$/.test(message)));
  assert.ok(seconds < 60, `${seconds} s`);
});

test('options of every element are looked at, and those of a call', WITH_PROGRAM, () => {
  const port = { id: 'p', layoutOptions: { portConstraints: 'FREE' } };
  const edge = { id: 'e', source: 'a', target: 'a', layoutOptions: { 'elk.direction': 'UP' } };
  const document = { id: 'r', children: [{ id: 'a', ports: [port], properties: { 'elk.foo': 1, directoin: 'UP' } }], edges: [edge] };
  assert.deepEqual(messages(document, { options: { 'elk.aspectRatios': 1, 'elk.port.side': 'EAST' } }), [
    'layoutOptions["elk.aspectRatios"] of the call is not an option of ELK; did you mean "elk.aspectRatio"?',
    'edges[0].layoutOptions["elk.direction"] has no effect, since it is an option of nodes with children and is at an edge',
    'children[0].properties.directoin is not an option of ELK; did you mean "direction"?',
    'children[0].ports[0].layoutOptions.portConstraints has no effect, since it is an option of nodes and is at a port',
  ]);
});

test('a value that the adapter does not know is reported', WITH_PROGRAM, () => {
  const label = { text: 'a', layoutOptions: { 'elk.edgeLabels.placement': 'HAED' } };
  const options = {
    'elk.nodeLabels.placement': 'INSIDE, H_CENTRE V_TOP',
    'elk.nodeSize.constraints': '[]',
    'elk.layered.mergeEdges': true,
    'elk.spacing.edgeLabel': '5.5',
    'elk.spacing.labelNode': 'wide',
  };
  const document = { id: 'r', layoutOptions: options, edges: [{ id: 'e', source: 'r', target: 'r', labels: [label] }] };
  assert.deepEqual(messages(document), [
    'layoutOptions["elk.nodeLabels.placement"] has no effect: it may be INSIDE, OUTSIDE, H_LEFT, H_CENTER, ' +
      'H_RIGHT, V_TOP, V_CENTER, V_BOTTOM, H_PRIORITY, and not "H_CENTRE"; did you mean "H_CENTER"?',
    'layoutOptions["elk.spacing.labelNode"] has no effect: it may be a number, and not "wide"',
    'edges[0].labels[0].layoutOptions["elk.edgeLabels.placement"] has no effect: it may be CENTER, HEAD, TAIL, and not "HAED"; ' +
      'did you mean "HEAD"?',
  ]);
});

test('the warning about an option of ELK says what is done instead', WITH_PROGRAM, () => {
  const document = { id: 'r', layoutOptions: { 'elk.randomSeed': 1, 'elk.debugMode': true } };
  assert.deepEqual(messages(document).sort(), [
    'layoutOptions["elk.debugMode"] has no effect, since this engine does not have this option of ELK',
    'layoutOptions["elk.randomSeed"] has no effect, since this engine does not have this option of ELK: ' +
      'the same graph is always drawn the same way',
  ]);
});

test('a label within a node that is too narrow for it is reported', WITH_PROGRAM, () => {
  const labels = [{ text: 'far too long for it', width: 90, height: 12 }, { text: 'a', width: 8, height: 12 }];
  const layoutOptions = { 'elk.nodeLabels.placement': 'INSIDE V_CENTER H_CENTER' };
  const node = { id: 'a', width: 40, height: 30, labels, layoutOptions };
  const grows = { ...layoutOptions, 'elk.nodeSize.constraints': 'NODE_LABELS' };
  const others = [{ ...node, id: 'b', layoutOptions: grows }, { ...node, id: 'c', layoutOptions: {} }, { ...node, id: 'd', width: 90 }];
  assert.deepEqual(messages({ id: 'r', children: [node, ...others] }), [
    'children[0].labels[0] is 90 wide, and its node only 40; add NODE_LABELS to nodeSize.constraints of the node',
  ]);
});

test('members that are written nearly as others are reported, and an editor\'s own are not', WITH_PROGRAM, () => {
  const node = { id: 'a', widht: 30, Height: 20, data: {}, type: 'x', position: {}, style: {}, selected: true, label: 'a' };
  const flow = { id: 'e', from: 'a', animated: true, markerEnd: {}, source: 'a', target: 'a', sourceHandle: 'h', targetHandle: null };
  const edges = [flow, { id: 'f', from: 'a', to: 'a' }];
  assert.deepEqual(messages({ id: 'r', childs: [], children: [node], edges, zoom: 1 }).sort(), [
    'children[0].Height is not read; did you mean "height"?',
    'children[0].label is not read; did you mean "labels"?',
    'children[0].widht is not read; did you mean "width"?',
    'edges[0].sourceHandle is not read; did you mean "sourcePort"?',
    'edges[1].from is not read; did you mean "sources"?',
    'edges[1].to is not read; did you mean "targets"?',
  ]);
});

test('a call reports its warnings, to the callback and in its log', WITH_PROGRAM, async () => {
  const told = [];
  const elk = new ELK({ program: PROGRAM, onWarning: (warning) => told.push(warning) });
  const graph = { id: 'r', layoutOptions: { 'elk.directon': 'UP' }, children: [{ id: 'a', heigth: 5 }] };
  const { logging } = await elk.layout(graph, { logging: true });
  elk.terminateWorker();
  assert.deepEqual(told.map(({ kind, id, path, near }) => [kind, id, path, near]), [
    ['unknownOption', 'r', 'layoutOptions["elk.directon"]', 'elk.direction'],
    ['unknownMember', 'a', 'children[0].heigth', 'height'],
  ]);
  assert.deepEqual(logging.logs, told.map(({ message }) => message));
});

test('without a callback the console reports each name once', WITH_PROGRAM, async (t) => {
  const lines = [];
  t.mock.method(console, 'warn', (line) => lines.push(line));
  const elk = new ELK({ program: PROGRAM });
  const graph = { id: 'r', layoutOptions: { 'elk.paddding': '[]' }, children: [{ id: 'a', layoutOptions: { 'elk.paddding': '[]' } }] };
  await elk.layout(graph);
  await elk.layout(graph);
  elk.terminateWorker();
  assert.deepEqual(lines, ['elk: layoutOptions["elk.paddding"] is not an option of ELK; did you mean "elk.padding"?']);
});

// Options that only count beside another one that gives a warning, and options that nobody uses for drawing.
const BESIDE_OTHERS = /^layered\.(considerModelOrder\.groupModelOrder|highDegreeNodes|layerUnzipping|layering\.(coffmanGraham|minWidth|nodePromotion)|nodePlacement\.linearSegments|wrapping)\./;

test('options of layered drawings that this engine lacks are reported with what is done instead', WITH_PROGRAM, () => {
  const { adapter, elk, instead, options } = require('../data/options.json');
  const read = new Set([...adapter, ...options].map(({ name }) => name));
  const silent = elk.filter((name) => name.startsWith('layered.') && !read.has(name) && !(name in instead));
  assert.deepEqual(silent.filter((name) => !BESIDE_OTHERS.test(name)), []);
  assert.deepEqual(Object.keys(instead).filter((name) => read.has(name) || !elk.includes(name)), []);
  const layer = { id: 'a', layoutOptions: { 'elk.layered.layering.layerId': 2 } };
  assert.deepEqual(messages({ id: 'r', children: [layer] }), [
    'children[0].layoutOptions["elk.layered.layering.layerId"] has no effect, since this engine does not have this option of ELK: ' +
      'nodes stand in the layers that make edges shortest, or that layerConstraint and partitions ask for',
  ]);
});
