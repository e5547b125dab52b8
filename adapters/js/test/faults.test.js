'use strict';
// The faults of texts, and those that calls report.

const assert = require('node:assert/strict');
const test = require('node:test');
const ELK = require('../src/elk');
const { lint } = require('../src/lint');
const { damagedDocument, damagedText } = require('./helpers/damage');
const { PROGRAM, run, WITH_PROGRAM } = require('./helpers/program');

const COUNT = Number(process.env.ELK_DAMAGED ?? 400);

const faultsIn = (text, how) => lint(text, how).filter(({ severity }) => severity === 'fault');

test('a text is no JSON if the program says so', WITH_PROGRAM, () => {
  const texts = Array.from({ length: COUNT }, (_, seed) => damagedText(seed));
  const said = run(['batch'], texts.map((text) => `${text}\n`).join('')).stdout.trimEnd().split('\n');
  const isRefused = said.map((reply) => reply.startsWith('refused 1 '));
  texts.forEach((text, seed) => {
    assert.equal(faultsIn(text).some(({ rule }) => rule === 1), isRefused[seed], `the text of the seed ${seed}: ${text.slice(0, 2000)}`);
  });
  assert.ok(isRefused.includes(true) && isRefused.includes(false));
});

test('all faults are reported, in the order of the rules', () => {
  const graph = {
    id: 'r',
    layoutOptions: { 'elk.direction': 'RIHGT' },
    children: [{ id: 'a', width: 0.5 }, { id: 'a', height: -1 }, {}],
    edges: [{ id: 'e', sources: ['a'], targets: ['A'] }, { id: 'f', sources: ['a', 'a'], targets: ['a', 'b'] }, { id: 'g' }],
  };
  const faults = faultsIn(JSON.stringify(graph), { numbers: 'exact' });
  assert.deepEqual(
    faults.map(({ rule, path: at }) => [rule, at]),
    [
      [2, 'children[0].width'],
      [3, 'edges[2]'],
      [3, 'children[2].id'],
      [4, 'children[1].height'],
      [7, 'children[1].id'],
      [8, 'edges[0].targets[0]'],
      [8, 'edges[1].targets[1]'],
      [9, 'edges[1]'],
      [11, 'layoutOptions["elk.direction"]'],
    ],
  );
  const [, , , , , end, , , option] = faults;
  assert.deepEqual([end.end, end.found, end.near, end.id], ['target', 'A', 'a', 'e']);
  assert.deepEqual([option.option, option.found, option.near, option.values], [
    'direction',
    'RIHGT',
    'RIGHT',
    ['UNDEFINED', 'RIGHT', 'LEFT', 'DOWN', 'UP'],
  ]);
});

test('a call refuses a graph for the fault that is found without a layout', WITH_PROGRAM, async () => {
  const elk = new ELK({ program: PROGRAM, onWarning: () => {} });
  for (let seed = 0; seed < COUNT / 2; seed += 1) {
    const text = damagedDocument(seed);
    const [first] = faultsIn(text);
    const said = await elk.layout(JSON.parse(text)).then(
      () => undefined,
      ({ message, path: at, faults }) => ({ message, path: at, count: faults.length > 0 }),
    );
    // Half of a surrogate pair is a fault of the text for a judge, and of the member for a call, which knows no text.
    const isHalf = / surrogate pair /.test(first?.message);
    const told = isHalf ? { ...said, count: true } : first && { message: first.message, path: first.path, count: true };
    assert.deepEqual(said, told, `seed ${seed}: ${text.slice(0, 2000)}`);
  }
  elk.terminateWorker();
});

test('a refusal has what mends it', WITH_PROGRAM, async () => {
  const elk = new ELK({ program: PROGRAM });
  const children = [{ id: 'a', width: 30.5 }, { id: 'box', children: [{ id: 'c', layoutOptions: { 'portConstraints': 'FIXD_POS' } }] }];
  const edges = [{ id: 'e', sources: ['a'], targets: ['C', 'a'] }, { id: 'f', sources: ['a'], targets: ['c'] }];
  const graph = { id: 'r', properties: { spacing: 1, nodeNodeBetweenLayers: 'wide', hierarchyHandling: 'SEPARATE_CHILDREN' }, children, edges };
  const error = await elk.layout(graph, { layoutOptions: { 'elk.algorithm': 'stress' } }).catch((it) => it);
  elk.terminateWorker();
  assert.ok(error instanceof ELK.Refusal);
  const { rule, name, id, path: at, found, allowed, near } = error;
  assert.deepEqual([rule, name, id, at, found, allowed, near], [8, 'UnknownEnd', 'e', 'edges[0].targets[0]', 'C', undefined, 'c']);
  assert.deepEqual(
    error.faults.map((fault) => [fault.rule, fault.id, fault.path, fault.found, fault.near]),
    [
      [8, 'e', 'edges[0].targets[0]', 'C', 'c'],
      [10, 'f', 'edges[1]', undefined, undefined],
      [11, 'r', 'layoutOptions["elk.algorithm"] of the call', 'stress', undefined],
      [11, 'r', 'properties.nodeNodeBetweenLayers', 'wide', undefined],
      [11, 'box', 'layoutOptions["elk.algorithm"] of the call', 'stress', undefined],
      [11, 'c', 'children[1].children[0].layoutOptions.portConstraints', 'FIXD_POS', 'FIXED_POS'],
    ],
  );
});

test('a balanced alignment is no fault', () => {
  const layoutOptions = { 'elk.layered.nodePlacement.bk.fixedAlignment': 'BALANCED' };
  const text = JSON.stringify({ id: 'r', layoutOptions });
  assert.deepEqual(faultsIn(text), []);
});
