'use strict';

const assert = require('node:assert/strict');
const { spawnSync } = require('node:child_process');
const path = require('node:path');
const test = require('node:test');
const ELK = require('../src/elk');
const { lint } = require('../src/lint');
const { toSvg } = require('../src/svg');
const { PROGRAM, WITH_PROGRAM } = require('./helpers/program');

const COUNTS = [3_000, 100_000];

const BIN = path.join(__dirname, '..', 'bin');

/** Something inside this many nested nodes. */
function nested(count, more = {}) {
  let node = { id: 'in', width: 10, height: 10, ...more };
  for (let at = count; at > 0; at -= 1) {
    node = { id: at, ...more, children: [node] };
  }
  return node;
}

/** The text of such a document, which JSON.stringify can't write. */
const nestedText = (count) =>
  `${Array.from({ length: count }, (_, at) => `{"id":${at},"x":1,"y":1,"width":9,"height":9,"children":[`).join('')}{"id":"in"}${']}'.repeat(count)}`;

/** So many lists in one another. */
function lists(count) {
  let list = [];
  for (let at = 1; at < count; at += 1) {
    list = [list];
  }
  return list;
}

const PATH = `${'children[0].'.repeat(51)}`.slice(0, -1);

const refusalOf = (graph, how = {}, call = {}) =>
  new ELK({ program: PROGRAM, onWarning: () => {}, ...how }).layout(graph, call).then(
    () => assert.fail('it is laid out'),
    (error) => error,
  );

const told = ({ name, rule, path: at, id, faults }) => ({ name, rule, at, id, count: faults.length });

const DEEP = { name: 'TooDeep', rule: 6, at: PATH, id: undefined, count: 1 };

test('a call refuses nodes in any number that stand in one another', async () => {
  for (const numbers of ['ceil', 'exact']) {
    for (const count of COUNTS) {
      const refusal = await refusalOf(nested(count), { numbers });
      assert.ok(refusal instanceof ELK.Refusal, refusal.stack);
      assert.deepEqual(told(refusal), DEEP, `${count} ${numbers}`);
      assert.match(refusal.message, /^nodes are nested more than 50 levels deep: children.*… ?.*is inside 51 nodes \(rule 6, TooDeep\)$/);
    }
  }
});

test('a call reports the same rule from 51 levels on, and takes 50', WITH_PROGRAM, async () => {
  const elk = new ELK({ program: PROGRAM });
  await elk.layout(nested(50));
  for (const count of [51, 55, 62, 63, 64, 70, 499, 501, 3_000]) {
    assert.deepEqual(told(await refusalOf(nested(count))), DEEP, count);
  }
  elk.terminateWorker();
});

test('a call refuses a graph that stands in itself', async () => {
  const graph = { id: 'r', children: [] };
  graph.children.push(graph, graph);
  assert.deepEqual(told(await refusalOf(graph)), DEEP);
});

test('a call refuses lists that stand in one another wherever it reads them', WITH_PROGRAM, async () => {
  const deep = lists(100_000);
  const node = { id: 'a', width: 1, height: 1 };
  for (const [graph, at] of [
    [{ id: deep }, 'id'],
    [{ id: 'r', children: deep }, 'children[0]'],
    [{ id: 'r', children: { of: deep } }, 'children'],
    [{ id: 'r', layoutOptions: deep }, 'layoutOptions'],
    [{ id: 'r', layoutOptions: { 'elk.direction': deep } }, 'layoutOptions["elk.direction"]'],
    [{ id: 'r', children: [{ ...node, width: deep }] }, 'children[0].width'],
    [{ id: 'r', children: [{ ...node, ports: [{ id: deep }] }] }, 'children[0].ports[0].id'],
    [{ id: 'r', children: [node], edges: [{ id: 'e', sources: deep, targets: ['a'] }] }, 'edges[0].sources'],
  ]) {
    const refusal = await refusalOf(graph);
    assert.ok(refusal instanceof ELK.Refusal, refusal.stack);
    assert.ok(refusal.path.startsWith(at), `${at}: ${refusal.path}`);
  }
  const ofCall = await refusalOf({ id: 'r' }, {}, { layoutOptions: { 'elk.direction': deep } });
  assert.equal(ofCall.path, 'layoutOptions["elk.direction"] of the call');
});

test('data of an editor may stand in one another as deep as they like, and in themselves', WITH_PROGRAM, async () => {
  const data = { deep: lists(100_000) };
  data.self = data;
  const elk = new ELK({ program: PROGRAM, onWarning: () => {} });
  const node = { id: 'a', width: 10, height: 10, data, ports: [{ id: 'p', ports: lists(100_000) }] };
  const { children } = await elk.layout({ id: 'r', children: [node], properties: { own: data } });
  elk.terminateWorker();
  assert.equal(children[0].data, data);
});

test('many labels, lines and letters at one element fill no stack', WITH_PROGRAM, async () => {
  const elk = new ELK({ program: PROGRAM });
  const node = { id: 'a', width: 10, height: 10 };
  await elk.layout({ id: 'r', children: [{ ...node, labels: [{ text: '\n'.repeat(200_000) }] }] });
  const labels = Array.from({ length: 200_000 }, () => ({ text: 'a', width: 1, height: 1 }));
  await elk.layout({ id: 'r', layoutOptions: { 'elk.nodeLabels.placement': 'INSIDE V_TOP H_LEFT' }, children: [{ ...node, labels }] });
  elk.terminateWorker();
  const ends = { sources: [`${'b'.repeat(200_000)}c`], targets: ['a'] };
  const refusal = await refusalOf({ id: 'r', children: [node, { ...node, id: `${'b'.repeat(200_000)}d` }], edges: [{ id: 'e', ...ends }] });
  assert.deepEqual([refusal.rule, refusal.near], [8, undefined]);
});

test('elk-lint reports where nodes stand too deep', () => {
  for (const count of [64, 300, ...COUNTS]) {
    const faults = lint(nestedText(count)).filter(({ severity }) => severity === 'fault');
    assert.deepEqual(faults.map(({ rule, path: at, line, column }) => ({ rule, at, line, column })), [
      { rule: 6, at: PATH, line: 1, column: nestedText(51).indexOf('{"id":"in"}') + 1 },
    ]);
  }
  const { status, stdout, stderr } = spawnSync(path.join(BIN, 'elk-lint'), [], { input: nestedText(100_000), encoding: 'utf8' });
  assert.deepEqual([status, stderr], [2, '']);
  assert.match(stdout, /rule 6, TooDeep/);
});

test('no picture is drawn of nodes that stand in one another too deep', () => {
  for (const count of COUNTS) {
    assert.throws(() => toSvg(JSON.parse(nestedText(count))), { name: 'TooDeep', path: PATH });
  }
  const graph = { id: 'r', width: 50, height: 50, children: [] };
  graph.children.push(graph, graph);
  assert.throws(() => toSvg(graph), { name: 'TooDeep', path: PATH });
});

test('sections that follow one another are one path, a thousand of them too', () => {
  const sections = Array.from({ length: 1000 }, (_, at) => ({
    ...{ id: at, startPoint: { x: at, y: 0 }, endPoint: { x: at + 1, y: 0 } },
    ...(at > 0 && { incomingSections: [at - 1] }),
    ...(at < 999 && { outgoingSections: [at + 1] }),
  }));
  const edges = [{ id: 'e', sources: ['a'], targets: ['b'], sections }];
  const placed = { id: 'r', width: 9, height: 9, children: [{ id: 'a' }, { id: 'b' }], edges };
  assert.match(toSvg(placed), /class="edge"/);
});

/** As much of a page's elements as `<elk-diagram>` asks for. */
class PageElement {
  isConnected = true;
  ownerDocument = { createElement: () => ({ setAttribute: () => {} }) };
  #attributes = new Map();

  hasAttribute(name) {
    return this.#attributes.has(name);
  }

  getAttribute(name) {
    return this.#attributes.get(name) ?? null;
  }

  setAttribute(name, value) {
    this.#attributes.set(name, value);
    this.attributeChangedCallback(name, null, value);
  }

  replaceChildren(...children) {
    this.children = children;
  }

  dispatchEvent({ type, detail }) {
    this.onEvent(type, detail);
  }
}

test('<elk-diagram> shows the refusal of nodes in any number that stand in one another', async () => {
  globalThis.HTMLElement = PageElement;
  globalThis.CustomEvent ??= class CustomEvent extends Event {
    constructor(type, { detail }) {
      super(type);
      this.detail = detail;
    }
  };
  const ElkDiagram = require('../src/elk-diagram');
  ElkDiagram.elk = new ELK({ program: PROGRAM });
  for (const count of COUNTS) {
    for (const set of [(it) => it.setAttribute('graph', nestedText(count)), (it) => Object.assign(it, { graph: nested(count) })]) {
      const diagram = new ElkDiagram();
      const [type, error] = await new Promise((resolve) => {
        diagram.onEvent = (...said) => resolve(said);
        set(diagram);
      });
      assert.equal(type, 'elk-error');
      assert.deepEqual(told(error), DEEP);
      assert.equal(diagram.children[0].textContent, error.message);
    }
  }
});
