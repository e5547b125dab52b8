'use strict';
// Documents with faults, made from good ones by a seeded choice of edits.

const { readdirSync, readFileSync } = require('node:fs');
const path = require('node:path');
const { TOP } = require('./program');

/** Numbers from 0 to 1 that a seed settles. */
function randomOf(seed) {
  let state = seed >>> 0;
  return () => {
    state = (state + 0x6d2b79f5) >>> 0;
    let mixed = Math.imul(state ^ (state >>> 15), state | 1);
    mixed ^= mixed + Math.imul(mixed ^ (mixed >>> 7), mixed | 61);
    return ((mixed ^ (mixed >>> 14)) >>> 0) / 2 ** 32;
  };
}

const EXAMPLES = readdirSync(path.join(TOP, 'examples'))
  .filter((name) => name.endsWith('.json'))
  .map((name) => readFileSync(path.join(TOP, 'examples', name), 'utf8'))
  .filter((text) => text.length < 20_000);

// Every rule has something to find in a document like this one.
const RICH = JSON.stringify({
  id: 'root',
  layoutOptions: { 'elk.direction': 'DOWN', 'elk.padding': '[top=4,left=4]', 'elk.spacing.nodeNode': '30' },
  ports: [{ id: 'rp', x: 2, y: 3, width: 4, height: 4, layoutOptions: { 'elk.port.side': 'NORTH' } }],
  children: [
    {
      ...{ id: 'a', width: 40, height: 30, layoutOptions: { 'elk.portConstraints': 'FIXED_POS' } },
      ports: [
        { id: 'a1', x: -4, y: 5, width: 4, height: 4, layoutOptions: { 'elk.port.side': 'WEST' } },
        { id: 'a2', x: 40, y: 5, width: 4, height: 4, labels: [{ text: 'out' }] },
      ],
    },
    { id: 1, width: 20, height: 20, ports: [{ id: '1', layoutOptions: { 'elk.port.index': 3 } }] },
    { id: 'boxes', labels: [{ id: 'l', text: 'boxes', width: 30, height: 12 }], layoutOptions: { 'elk.algorithm': 'box' }, children: [{ id: 'b1', width: 9, height: 9 }, { id: 'b2' }] },
    {
      ...{ id: 'in', layoutOptions: { 'elk.portConstraints': 'FIXED_POS' } },
      ports: [{ id: 'ip', x: 0, y: 7, layoutOptions: { 'elk.port.side': 'EAST' } }],
      children: [{ id: 'i1', width: 9, height: 9 }, { id: 'i2', width: 9, height: 9 }],
      edges: [{ id: 'ie', sources: ['i1'], targets: ['i2'] }],
    },
  ],
  edges: [
    { id: 'e1', sources: ['a2'], targets: [1], layoutOptions: { 'elk.layered.priority.shortness': 4 } },
    { id: 'e2', source: 1, sourcePort: '1', target: 'boxes' },
    { id: 'e3', source: 'in', target: 'a', targetPort: 'a1', labels: [{ text: 'three', width: 20, height: 10 }] },
    { id: 2, sources: ['a'], targets: ['a'] },
  ],
});

const VALUES = [
  ...[null, true, false, [], {}, '', 'a', 'x', 'root', 1, '1', 2, 0, -1, 20, 0.5, -0, 1e21, 2 ** 53, 2 ** 53 + 2, -(2 ** 63)],
  ...[1048576, 1048577, -1048576, -1048577, 2147483647, 2147483648, 'FIXED_POS', 'fixed_pos', 'FREE', 'EAST', 'west', 'NORTH'],
  ...['box', 'layered', 'RIGHT', '12', '12.0', '1.5', '[top=1]', '[top=1,top=2]', 'true', 'é', '\ud800', '\u0000', ['a'], ['a', 1]],
  ...[{ id: 'a' }, [{ id: 'new' }], { id: 'e1', sources: ['a'], targets: ['b1'] }, [{ id: 7, source: 'b1', target: 'b2' }]],
];

const NAMES = [
  ...['id', 'width', 'height', 'x', 'y', 'children', 'ports', 'edges', 'layoutOptions', 'sources', 'targets', 'source'],
  ...['target', 'sourcePort', 'targetPort', 'labels', '__proto__', 'elk.direction', 'elk.algorithm', 'direction', 'port.side'],
  ...['elk.portConstraints', 'org.eclipse.elk.portConstraints', 'elk.port.side', 'elk.padding', 'elk.spacing.edgeEdge'],
];

const isHolder = (value) => typeof value === 'object' && value !== null;

/** All arrays and objects of a value. */
const holdersIn = (value) => (isHolder(value) ? [value, ...Object.values(value).flatMap(holdersIn)] : []);

const pick = (random, list) => list[Math.floor(random() * list.length)];

function set(holder, name, value) {
  Object.defineProperty(holder, name, { value, configurable: true, enumerable: true, writable: true });
}

const idsIn = (root) => holdersIn(root).map(({ id }) => id).filter((id) => id !== undefined);

/** An edge, if there is one, leads to any element of the document. */
function redirect(random, root) {
  const edge = pick(random, holdersIn(root).filter(({ target, targets }) => target !== undefined || Array.isArray(targets)));
  if (edge) {
    set(edge, edge.targets ? 'targets' : 'target', edge.targets ? [pick(random, idsIn(root))] : pick(random, idsIn(root)));
  }
}

/** A size or a place, if there is one, becomes another. */
function move(random, root) {
  const box = pick(random, holdersIn(root).filter(({ x, width }) => x !== undefined || width !== undefined));
  if (box) {
    set(box, pick(random, ['x', 'y', 'width', 'height']), pick(random, [0, 1, 3, 8, 20, 26, 40, 1048576, 1048577, -1048577, -1]));
  }
}

const EDITS = [
  (random, holder, name) => set(holder, name, structuredClone(pick(random, VALUES))),
  (random, holder, name) => (Array.isArray(holder) ? holder.splice(Number(name), 1) : delete holder[name]),
  (random, holder, name, root) => set(holder, name, structuredClone(pick(random, Object.values(pick(random, holdersIn(root)))))),
  (random, holder) => (Array.isArray(holder) ? holder.push(structuredClone(pick(random, holder) ?? null)) : undefined),
  (random, holder, name, root) => redirect(random, root),
  (random, holder, name, root) => move(random, root),
  (random, holder) => (Array.isArray(holder) ? undefined : set(holder, pick(random, NAMES), structuredClone(pick(random, VALUES)))),
];

/** The text of one of some documents with up to three edits; the seed settles all. */
function damaged(texts, seed) {
  const random = randomOf(seed);
  const root = JSON.parse(pick(random, texts));
  for (let count = Math.floor(random() * 3) + 1; count > 0; count -= 1) {
    const holder = pick(random, holdersIn(root).filter((it) => Object.keys(it).length > 0));
    const name = holder && pick(random, Object.keys(holder));
    // A copy of a copy would soon be too large to tell anything.
    if (holder && JSON.stringify(root).length < 50_000) {
      pick(random, EDITS)(random, holder, name, root);
    }
  }
  return JSON.stringify(root);
}

/** Good documents; that which has most to damage stands most often. */
const goodTexts = () => [...EXAMPLES.map(() => RICH), ...EXAMPLES.map(() => RICH), ...EXAMPLES];

const damagedDocument = (seed) => damaged(goodTexts(), seed);

const SNIPPETS = [...'{}[]",:0123456789.-+eE \t\r\\/unxtrfals\'', '1.0', '-0', '1e2', '\\ud83d', '\\ude00', '//', 'é', '\u0001', '99999999999999999999'];

/** A text of a good document with up to three letters changed, left out or put in, without a line feed. */
function damagedText(seed) {
  const random = randomOf(seed);
  let text = random() < 0.5 ? RICH : JSON.stringify(JSON.parse(pick(random, EXAMPLES)));
  for (let count = Math.floor(random() * 3) + 1; count > 0; count -= 1) {
    const at = Math.floor(random() * (text.length + 1));
    text = text.slice(0, at) + (random() < 0.7 ? pick(random, SNIPPETS) : '') + text.slice(at + Math.floor(random() * 2));
  }
  return text;
}

module.exports = { damaged, damagedDocument, damagedText, goodTexts };
