'use strict';
// The playground, in real browsers and without one.

const assert = require('node:assert/strict');
const { spawnSync } = require('node:child_process');
const { createHash } = require('node:crypto');
const { mkdtempSync, readFileSync, readdirSync, rmSync, writeFileSync } = require('node:fs');
const { tmpdir } = require('node:os');
const path = require('node:path');
const test = require('node:test');
const { setTimeout: rest } = require('node:timers/promises');
const { pathToFileURL } = require('node:url');
const { deflateRawSync, inflateRawSync } = require('node:zlib');
const { withoutCopies } = require('../pack/copies');
const { examples, playground } = require('../pack/playground');
const { withCopies } = require('../playground/copies');
const { elementAt } = require('../playground/element-at');
const { FORMS, formOf } = require('../playground/forms');
const { withOption } = require('../playground/json/choices');
const { completionAt, helpAt } = require('../playground/json/completion');
const { formatted } = require('../playground/json/format');
const { placesIn } = require('../playground/json/places');
const { largeText } = require('../playground/large');
const { documentIn, hashOf } = require('../playground/link');
const { packed: packedBytes, unpacked } = require('../playground/packing');
const { partsOf } = require('../playground/picture');
const { Studio } = require('../playground/studio');
const { STEPS } = require('../playground/tour');
const { verdictOf } = require('../playground/verdict');
const { Ways } = require('../playground/ways');
const { Program } = require('../src/module');
const { moduleBytes } = require('../src/module/file');
const { Browser, WITH_BROWSER } = require('./helpers/browser');
const { Firefox, WITH_FIREFOX } = require('./helpers/firefox');
const { WITH_MODULE } = require('./helpers/module');
const { elementsOfXml } = require('./helpers/xml');

const room = mkdtempSync(path.join(tmpdir(), 'elk-playground-'));

const address = pathToFileURL(path.join(room, 'playground.html')).href;

test.before(() => {
  if (!WITH_MODULE.skip) {
    writeFileSync(path.join(room, 'playground.html'), playground());
  }
});

test.after(() => rmSync(room, { recursive: true, force: true }));

let studio;

async function started() {
  return new Studio(new Program(await WebAssembly.compile(await moduleBytes())));
}

test('the editor of the page is what its packages make, where they are here', () => {
  const { status, stderr } = spawnSync(path.join(__dirname, '..', 'pack', 'editor'), ['--check'], { encoding: 'utf8' });
  assert.equal(status, 0, stderr);
});

const LOOK = { theme: 'auto', arrows: true };

/** All that the playground tells of a text. */
async function toldOf({ text, form = formOf(text), isPlaced = false }) {
  studio ??= started();
  const asked = { text, form, isPlaced };
  const heard = {};
  const answer = (await studio).answer({ ...asked, look: LOOK }, (news) => Object.assign(heard, news));
  const drawing = heard.drawing && { ...heard.drawing, placed: heard.placed };
  const judged = drawing || isPlaced ? (await studio).judge(asked) : {};
  return { ...heard, ...answer, ...judged, notes: [...(answer.notes ?? []), ...(judged.notes ?? [])], drawing };
}

test('the page needs no network', WITH_MODULE, () => {
  const page = playground();
  assert.match(page, /default-src 'none'/);
  assert.doesNotMatch(page, /<[^>]*(?:src|href)="(?!data:)/);
});

test('the page runs no script but its own two: one that stands there, and one that it unpacks', WITH_MODULE, () => {
  const page = playground();
  const [, boot] = /<script>(.*?)<\/script>/s.exec(page);
  const [, main] = /<script id="script" [^>]*>(.*?)<\/script>/s.exec(page);
  const [, sources] = /script-src ([^;]*);/.exec(page);
  const sums = [boot, inflateRawSync(unpacked(main))].map((script) => createHash('sha256').update(script).digest('base64'));
  assert.equal(sources, `${sums.map((sum) => `'sha256-${sum}'`).join(' ')} 'wasm-unsafe-eval' blob:`);
});

test('the page is smaller than 1.4 MB, and names the licence of what it holds', WITH_MODULE, () => {
  const page = playground();
  assert.ok(Buffer.byteLength(page) < 1_400_000, `${Buffer.byteLength(page)} bytes`);
  assert.match(page, /CodeMirror, MIT License\n\nCopyright \d+ Marijn Haverbeke/);
});

const OTHERWISE = {
  // Its edges lead into clusters, so that the engine is asked level by level.
  release: ({ faults, warnings, verdict, notes, drawing }) => {
    assert.deepEqual([faults, warnings, verdict], [[], [], undefined]);
    assert.match(notes[0].message, /cross the borders of nodes/);
    assert.match(drawing.svg, /compile/);
  },
  overlap: ({ verdict }) => assert.equal(verdict.line, 'no 6 "reader" "parser"'),
  mistakes: ({ faults, warnings }) => assert.deepEqual([faults.length, warnings.length], [4, 2]),
};

test('each example is drawn and judged as it is meant', WITH_MODULE, async () => {
  const asUsual = ({ faults, warnings, verdict, drawing }, id) => {
    assert.deepEqual([faults, warnings, verdict.line], [[], [], 'yes'], id);
    assert.ok(elementsOfXml(drawing.svg).some(({ name }) => name === 'text'), id);
  };
  for (const { id, text, isPlaced } of examples()) {
    (OTHERWISE[id] ?? asUsual)(await toldOf({ text, isPlaced }), id);
  }
});

test('faults come in the order of the text, each with its place', WITH_MODULE, async () => {
  const edge = '{ "id": "e", "sources": ["a"], "targets": ["b"] }';
  const text = `{ "id": "r",\n "children": [{ "id": "a", "width": -1 }],\n "edges": [${edge}] }`;
  const { faults, drawing } = await toldOf({ text });
  assert.deepEqual(faults.map(({ line, column }) => [line, column]), [[2, 37], [3, 55]]);
  assert.equal(drawing, undefined);
});

test('a drawing that can not be judged is shown all the same', WITH_MODULE, async () => {
  const { faults, verdict, drawing } = await toldOf({ text: '{ "id": "r", "width": 20.5, "height": 20 }', isPlaced: true });
  assert.ok(faults.length > 0);
  assert.equal(verdict, undefined);
  assert.equal(drawing.measures.width, 20.5);
});

const VERDICTS = [
  ['yes\n', true, /^the drawing keeps all rules$/],
  ['no 6 "reader" "parser"\n', false, /: "reader" and "parser" \(6, Apart\)$/],
  ['no 10 "e" 2\n', false, /: "e" and 2 \(10, Clear\)$/],
  ['no 14 - -\n', false, /least \(14, FlowProof\)$/],
  ['no 8 "a \\" b" -\n', false, /: "a \\" b" \(8, PortsKept\)$/],
  ['out of memory\n', false, /^out of memory$/],
];

test('verdicts are reported in words', () => {
  for (const [line, isGood, words] of VERDICTS) {
    const verdict = verdictOf(line);
    assert.equal(verdict.isGood, isGood, line);
    assert.match(verdict.words, words, line);
  }
});

test('elements of the drawing and places in the text lead to one another', () => {
  const text = '{ "id": "r", "edges": [{ "id": 1 }],\n "children": [{ "id": "1", "children": [{ "id": "é" }] }, { "id": 2 }] }';
  const cases = [
    ['node', 'r', 1, '"r"'],
    ['edge', '1', 1, '1 }'],
    ['node', '1', 2, '"1"'],
    ['node', 'é', 2, '"é"'],
    ['node', '2', 2, '2 }'],
  ];
  const places = placesIn(text);
  for (const [kind, id, line, words] of cases) {
    const column = text.split('\n')[line - 1].indexOf(words) + 1;
    const found = places.find((it) => it.kind === kind && it.id === id);
    assert.deepEqual([found.line, found.column], [line, column], `${kind} ${id}`);
    assert.equal(elementAt(places, text.indexOf(words)), found, `${kind} ${id}`);
  }
  assert.equal(elementAt(places, text.indexOf(', { "id": 2')).id, 'r');
  assert.equal(elementAt(places, text.length), undefined);
  assert.deepEqual(placesIn('{ "id": '), []);
});

const FORMED = [
  ['', 'json'],
  ['{}', 'json'],
  ['\n [', 'json'],
  ['hello', 'json'],
  ['graph{', 'dot'],
  ['// a -> b\n/* { */ strict digraph "a b" {', 'dot'],
  ['# 1 "x.gv"\ndigraph G\n{', 'dot'],
  ['a -> b', 'lines'],
  ['a--b', 'lines'],
  ['graph -> plan', 'lines'],
];

test('the form of a text is reported by its beginning', () => {
  for (const [text, form] of FORMED) {
    assert.equal(formOf(text), form, text);
  }
});

// Each with the nodes and edges that stand in it.
const LINES = [
  ['a -> b', 'a->b, a, b'],
  ['  a -- b : yes', 'a->b, a, b'],
  ['read file -> "x y" -> b2: say "hi"', 'read file->x y, read file, x y->b2, x y, b2'],
  ['"a->b" : start here', 'a->b'],
  ['a : b -> c\nb -> c', 'a, b->c, b, c'],
  ['node -> edge', 'node->edge, node, edge'],
  ['a\\b c -> -5', 'a\\\\b c->-5, a\\\\b c, -5'],
  ['a:e -> b:w', 'a:e->b:w, a, b'],
  ['a -> b [color=red]', 'a->b, a, b'],
  ['rankdir=LR\r\na b -> c\r\n', 'a b->c, a b, c'],
  ['x\n// a -> b', 'x'],
  ['subgraph cluster_x {\na b\n}', 'cluster_x, a b'],
];

test('lines are sent as they are, and their nodes and edges are found', WITH_MODULE, async () => {
  for (const [text, ids] of LINES) {
    assert.deepEqual(FORMS.lines.request(text), { dot: text });
    const { drawing, places } = await toldOf({ text, form: 'lines' });
    const elements = JSON.parse(drawing.placed);
    assert.equal(places.slice(1).filter(({ isAgain }) => !isAgain).map(({ id }) => id).join(', '), ids, text);
    assert.equal(places.filter(({ kind }) => kind === 'edge').length, elements.edges?.length ?? 0, text);
  }
});

const GRAPH = 'digraph G {\n  subgraph cluster_a { a -> b [label="x"]; b }\n  a -> b; "c d":p -> b:e\n}\n';

test('nodes and edges of a drawing are found in DOT and in lines', WITH_MODULE, async () => {
  const dot = (await toldOf({ text: GRAPH })).places;
  const words = (text, { start, end }) => text.slice(Math.max(start, 0), end);
  const found = (places, text) => places.filter(({ isAgain }) => !isAgain).map((it) => [it.kind, it.id, it.line, it.column, words(text, it)]);
  assert.deepEqual(found(dot, GRAPH).slice(1), [
    ['node', 'cluster_a', 2, 12, 'cluster_a { a -> b [label="x"]; b }'],
    ['edge', 'a->b', 2, 24, 'a -> b [label="x"]'],
    ['node', 'a', 2, 24, 'a'],
    ['node', 'b', 2, 29, 'b'],
    ['edge', 'a->b 2', 3, 3, 'a -> b'],
    ['edge', 'c d:p->b:e', 3, 11, '"c d":p -> b:e'],
    ['node', 'c d', 3, 11, '"c d":p'],
  ]);
  assert.equal(elementAt(dot, GRAPH.indexOf('->')).id, 'a->b');
  assert.equal(elementAt(dot, GRAPH.indexOf('; b }') + 3).id, 'b');
  const text = 'a b -> c : some words\n// c\nc -> a b';
  const lines = (await toldOf({ text })).places;
  assert.deepEqual(found(lines, text).slice(1), [
    ['edge', 'a b->c', 1, 1, 'a b -> c : some words'],
    ['node', 'a b', 1, 1, 'a b'],
    ['node', 'c', 1, 8, 'c'],
    ['edge', 'c->a b', 3, 1, 'c -> a b'],
  ]);
});

test('faults and warnings of DOT and of lines are reported with their places', WITH_MODULE, async () => {
  const placesOf = (list) => list.map(({ line, column, message }) => [line, column, message.slice(0, 24)]);
  const broken = await toldOf({ text: 'digraph {\n  a -> ;\n}' });
  assert.deepEqual([placesOf(broken.faults), broken.drawing], [[[2, 8, 'expected a node or a sub']], undefined]);
  const { warnings } = await toldOf({ text: 'digraph {\n  a -> b [minlen=3]\n}' });
  assert.deepEqual(placesOf(warnings), [[2, 11, 'the attribute minlen has']]);
  const lines = await toldOf({ text: 'a -> b\nb -> ]' });
  assert.deepEqual(placesOf(lines.faults), [[2, 6, 'expected a node or a sub']]);
  const open = await toldOf({ text: 'a -> b\nb ->' });
  assert.deepEqual(placesOf(open.faults), [[2, 5, 'expected a node or a sub']]);
});

test('bytes survive without their far copies', () => {
  const random = Buffer.from(Array.from({ length: 5000 }, (_, at) => (at * at * 31 + at * 7) >> 5));
  const far = Buffer.concat([random, Buffer.alloc(40_000, 7), random, Buffer.from('end'), random.subarray(20, 45), Buffer.alloc(90_000)]);
  for (const bytes of [Buffer.alloc(0), Buffer.from('short'), Buffer.alloc(100_000), random, far]) {
    assert.deepEqual(Buffer.from(withCopies(withoutCopies(bytes))), bytes);
  }
  assert.ok(far.length - withoutCopies(far).length > 4900);
});

test('bytes survive their text, and a page that is read again', () => {
  for (const bytes of [[], [60], [0, 13, 60, 255], Array.from({ length: 999 }, (_, at) => (at * 97) & 255), Array(50).fill(60), Array(51).fill(0)]) {
    const text = packedBytes(Uint8Array.from(bytes));
    assert.doesNotMatch(text, /[\0\r<]/);
    assert.deepEqual([...unpacked(Buffer.from(text).toString())], bytes);
  }
});

test('a large picture is read in parts, each of which is a picture with the elements of its groups', WITH_MODULE, async () => {
  const { drawing: { svg } } = await toldOf({ text: largeText(2000) });
  const [first, ...later] = partsOf(svg);
  assert.equal(first + later.map((part) => part.slice(part.indexOf('>') + 1)).join(''), svg);
  assert.ok(later.length > 1 && later.every((part) => /^<g class="(?:nodes|edges|labels)".*>\n?<(?!g class="[a-z]+s")/.test(part)));
  const lengths = [first, ...later].map((part) => part.length);
  assert.ok(Math.max(...lengths) < 255_000 && Math.min(...lengths) > 100_000, lengths.join());
});

test('a text that is formatted keeps each value as it was written', () => {
  const text = '{"id":12345678901234567890,"a":[ ],"b":{ },"c":"x{,}\\"","d":1.50e5,"a":[1,{"k":[[]]}]}';
  const lines = ['{', '  "id": 12345678901234567890,', '  "a": [],', '  "b": {},', '  "c": "x{,}\\"",', '  "d": 1.50e5,'];
  assert.equal(formatted(text), [...lines, '  "a": [1, { "k": [[]] }]', '}', ''].join('\n'));
  for (const { text: example } of examples().filter((it) => formOf(it.text) === 'json')) {
    assert.deepEqual(JSON.parse(formatted(example)), JSON.parse(example));
    assert.equal(formatted(formatted(example)), formatted(example));
  }
});

const COMPLETED = [
  ['{ "layoutOptions": { "DIR| } }', ['"elk.direction": '], /^$/],
  ['{ "layoutOptions": { "direction": "u|" } }', ['"UP"', '"UNDEFINED"'], /^elk\.direction: UNDEFINED, RIGHT, LEFT, DOWN, UP; default RIGHT$/],
  ['{ "layoutOptions": { "elk.effort|": 3 } }', ['"elk.layered.effort"'], /^$/],
  ['{ "layoutOptions": { "elk.layered.effort": |', ['7'], /^elk\.layered\.effort: whole, 1 to 1,000; default 7$/],
  ['{ "layoutOptions": { "elk.layered.straightness": |', ['4'], /default 4$/],
  ['{ "layoutOptions": { "elk.layered.slots": |', ['"FEWEST"', '"UNCROSSED"'], /default UNCROSSED$/],
  ['{ "children": [{ "layoutOptions": { "elk.layered.position": |', ['0'], /default no position$/],
  ['{ "layoutOptions": { "separateConnectedComponents": |', ['true', 'false'], /default true$/],
  ['{ "children": [{ "ports": [{ "layoutOptions": { "|" } }] }] }', ['"elk.port.side": ', '"elk.port.index": '], /^$/],
  ['{ "children": [{ "wid|" }] }', ['"width": '], /^$/],
  ['{ "edges": [{ "sources": ["|"] }] }', ['"a"', '"b"'], /^$/],
  ['{ "edges": [{ "id": "|" }] }', [], /^$/],
];

test('what can be written at a place is reported', () => {
  for (const [given, words, help] of COMPLETED) {
    const [before, after] = given.split('|');
    const { from, to, list } = completionAt(before + after, before.length, ['a', 'b']);
    const texts = list.map(({ text }) => text);
    assert.deepEqual(words.length > 0 ? texts.filter((text) => words.includes(text)).sort() : texts, [...words].sort(), given);
    assert.ok(from <= before.length && before.length <= to, given);
    assert.match(helpAt(before + after, before.length), help, given);
  }
});

const WRITTEN = [
  ['{}', '{ "layoutOptions": { "elk.direction": "DOWN" } }'],
  ['{ "id": 1 }', '{ "layoutOptions": { "elk.direction": "DOWN" }, "id": 1 }'],
  ['{\n  "id": 1\n}', '{\n  "layoutOptions": { "elk.direction": "DOWN" },\n  "id": 1\n}'],
  ['{"layoutOptions":{"org.eclipse.elk.direction":"UP","a":1}}', '{"layoutOptions":{"org.eclipse.elk.direction":"DOWN","a":1}}'],
  ['{\n  "layoutOptions": {\n    "a": 1\n  }\n}', '{\n  "layoutOptions": {\n    "elk.direction": "DOWN",\n    "a": 1\n  }\n}'],
  ['{ "layoutOptions": {} }', '{ "layoutOptions": { "elk.direction": "DOWN" } }'],
];

const changed = (text, { from, to, text: words }) => text.slice(0, from) + words + text.slice(to);

test('an option is written into a text, and taken out of it', () => {
  for (const [text, expected] of WRITTEN) {
    const made = changed(text, withOption(text, 'direction', 'DOWN'));
    assert.equal(made, expected);
    const { layoutOptions = {}, ...rest } = JSON.parse(text);
    const { layoutOptions: left, ...other } = JSON.parse(changed(made, withOption(made, 'direction', undefined)));
    delete layoutOptions['org.eclipse.elk.direction'];
    assert.deepEqual([left, other], [layoutOptions, rest], text);
  }
  assert.equal(withOption('[]', 'direction', 'UP'), undefined);
  assert.equal(withOption('{ "layoutOptions": { "a": 1 } }', 'direction', undefined), undefined);
});

const ATTRIBUTES = [
  ['digraph { a -> b }', 'direction', 'UP', 'digraph { rankdir=BT; a -> b }'],
  ['digraph {\n  a -> b\n}', 'edgeRouting', 'SPLINES', 'digraph {\n  splines=true;\n  a -> b\n}'],
  ['graph { graph [nodesep=1] rankdir=LR a -- b [rankdir=TB] }', 'spacing.nodeNode', 36, 'graph { graph [nodesep=0.5] rankdir=LR a -- b [rankdir=TB] }'],
  ['digraph { rankdir=LR; a -> b }', 'direction', undefined, 'digraph { a -> b }'],
  ['digraph {\n  rankdir="LR";\n  a\n}', 'direction', undefined, 'digraph {\n  a\n}'],
  ['a -> b', 'layered.spacing.nodeNodeBetweenLayers', 72, 'ranksep=1\na -> b'],
  ['rankdir=LR\na -> b', 'direction', 'DOWN', 'rankdir=TB\na -> b'],
];

test('an option is written into DOT and lines as an attribute, and taken out of them', () => {
  for (const [text, name, value, expected] of ATTRIBUTES) {
    const form = FORMS[formOf(text)];
    const made = changed(text, form.withOption(text, name, value));
    assert.equal(made, expected);
    assert.equal(form.chosenIn(made)[name], value);
  }
  assert.equal(FORMS.dot.withOption('digraph { a }', 'direction', undefined), undefined);
  const lacking = FORMS.dot.controls.filter(({ lack }) => lack).map(({ title }) => title);
  assert.deepEqual(lacking, ['Placement', 'Effort']);
});

test('the tour has five steps, of which the last alone has faults, and all are mended by buttons', WITH_MODULE, async () => {
  assert.equal(STEPS.length, 5);
  for (const [at, { text }] of STEPS.entries()) {
    const { faults, warnings, verdict } = await toldOf({ text });
    assert.deepEqual([faults.map(({ mend }) => mend), warnings], [at === 4 ? ['"DOWN"', '"writer"'] : [], []], STEPS[at].title);
    assert.equal(verdict?.line, at === 4 ? undefined : 'yes');
  }
});

test('undoing leads back to what was done with a text', () => {
  const ways = new Ways();
  ways.choose('placed', 3);
  assert.equal(ways.after(4, false), 'placed');
  assert.equal(ways.after(2, true), 'layout');
  assert.equal(ways.after(3, true), 'placed');
  assert.equal(ways.after(2, true), 'layout');
  // What is written now stands where the other way began.
  assert.equal(ways.after(3, false), 'layout');
});

test('nodes without a size are drawn with that of their text, which is reported', WITH_MODULE, async () => {
  const text = '{ "id": "r",\n "children": [{ "id": "a node of many letters" }, { "id": "b", "height": 50 }, { "id": "c", "width": 9, "height": 9 }] }';
  const { drawing, notes, verdict } = await toldOf({ text });
  const [a, b, c] = JSON.parse(drawing.placed).children;
  assert.ok(a.width > 100 && a.height >= 30, JSON.stringify(a));
  assert.deepEqual([b.width, b.height, c.width, c.height], [30, 50, 9, 9]);
  assert.deepEqual(notes, [
    { message: '2 nodes have no size, so they take the sizes of their texts; write "width" and "height" to choose', line: 2, column: 23 },
  ]);
  assert.equal(verdict.line, 'yes');
});

test('a drawing that was saved here is judged as it was', WITH_MODULE, async () => {
  for (const id of ['machine', 'buses', 'circuit']) {
    const { drawing } = await toldOf(examples().find((it) => it.id === id));
    const { faults, verdict } = await toldOf({ text: formatted(drawing.placed), isPlaced: true });
    assert.deepEqual([faults, verdict.line], [[], 'yes'], id);
    const moved = JSON.parse(drawing.placed);
    moved.children[1].x += 1;
    const other = await toldOf({ text: JSON.stringify(moved), isPlaced: true });
    assert.ok(other.faults.length > 0 || !other.verdict.isGood, id);
  }
});

test('a drawing with parts is judged as it was, unless its level asks for none', WITH_MODULE, async () => {
  const { drawing } = await toldOf({ text: '{ "id": "r", "children": [{ "id": "a", "width": 30, "height": 20 }, { "id": "b" }, { "id": "c" }] }' });
  const verdictOn = async (more) => {
    const text = JSON.stringify({ ...JSON.parse(drawing.placed), ...more });
    return (await toldOf({ text, isPlaced: true })).verdict.line;
  };
  assert.deepEqual([await verdictOn({}), await verdictOn({ layoutOptions: { 'elk.separateConnectedComponents': false } })], ['yes', 'no 6 "a" "b"']);
});

test('a link carries any document, compressed or not', async () => {
  const texts = ['', '{}', '{"id":"é 😀 \\u2028"}', 'x'.repeat(100_000)];
  const { CompressionStream } = globalThis;
  for (const stream of [CompressionStream, undefined]) {
    globalThis.CompressionStream = stream;
    try {
      for (const text of texts) {
        for (const isPlaced of [false, true]) {
          const hash = await hashOf({ text, isPlaced });
          assert.match(hash, /^#[\w=&-]+$/);
          assert.deepEqual(await documentIn(hash), { text, isPlaced });
        }
      }
    } finally {
      globalThis.CompressionStream = CompressionStream;
    }
  }
  assert.equal(await documentIn('#other'), undefined);
  await assert.rejects(documentIn('#z=AAAA'));
});

let packed;

/** A link that is short and unpacks to 32 MiB. */
function bomb() {
  packed ??= deflateRawSync(Buffer.alloc(2 ** 25, ' ')).toString('base64url');
  return `#z=${packed}`;
}

test('what a link unpacks to is bounded', async () => {
  await assert.rejects(documentIn(bomb()), /longer than 1 MiB/);
  await assert.rejects(hashOf({ text: ' '.repeat(2 ** 20 + 1), isPlaced: false }), /longer than 1 MiB/);
});

const pair = (layoutOptions = {}) =>
  JSON.stringify({
    id: 'pair',
    layoutOptions,
    children: ['a', 'b'].map((id) => ({ id, width: 30, height: 30 })),
    edges: [{ id: 'line', sources: ['a'], targets: ['b'] }],
  });

/** A document whose layout takes minutes: a chain with edges drawn by chance, which pass many layers. */
function slow() {
  let seed = 1;
  const below = (bound) => {
    seed = (seed * 48271) % 2147483647;
    return seed % bound;
  };
  const children = Array.from({ length: 1000 }, (_, id) => ({ id, width: 30, height: 30 }));
  const chain = children.slice(1).map((_, at) => [at, at + 1]);
  const more = Array.from({ length: 1000 }, () => [below(500), 500 + below(500)]);
  const edges = [...chain, ...more].map(([source, target], id) => ({ id, source, target }));
  const layoutOptions = { 'elk.layered.nodePlacement.strategy': 'NETWORK_SIMPLEX' };
  return JSON.stringify({ id: 'slow', layoutOptions, children, edges });
}

const SECONDS = 40;

/** Waits until an expression of the page gives something. */
async function until(page, expression) {
  for (const since = Date.now(); Date.now() - since < SECONDS * 1000; ) {
    const value = await page.evaluate(expression);
    if (value) {
      return value;
    }
    await rest(40);
  }
  throw new Error(`the page never came to ${expression}: ${await page.evaluate(`document.querySelector('footer').innerText`)}`);
}

const click = (id) => `document.getElementById('${id}').click()`;

const texts = `[...(document.getElementById('picture').shadowRoot?.querySelectorAll('text') ?? [])].map(({ textContent }) => textContent)`;

const viewBox = `document.getElementById('picture').shadowRoot.querySelector('svg').getAttribute('viewBox')`;

const verdict = `document.getElementById('verdict').innerText`;

const isDrawn = (id) => `(${texts}).includes('${id}') && !document.body.classList.contains('outdated') && ${verdict} !== ''`;

const mirror = `document.querySelector('.CodeMirror').CodeMirror`;

const selected = `${mirror}.getSelection()`;

const textOfPage = `${mirror}.getValue()`;

const toldWords = `document.getElementById('told').innerText`;

const isHidden = (id) => `document.getElementById('${id}').hidden`;

/** Types a whole document in place of the one that is there. */
async function typeAll(page, text) {
  await page.evaluate(`${mirror}.focus(), ${mirror}.execCommand('selectAll')`);
  await page.type(text);
}

/** Puts a long document in, as a paste does. */
const putIn = (page, text) => page.evaluate(`${mirror}.setValue(${JSON.stringify(text)})`);

const undo = (page) => page.evaluate(`${mirror}.undo()`);

const openExample = (id) => `document.querySelector('#cards [data-id=${id}]').click()`;

const choose = (id, value) => `(() => {
  const it = document.getElementById('${id}');
  it.value = '${value}';
  it.dispatchEvent(new Event('change'));
})()`;

async function savedFile(folder, name) {
  for (const since = Date.now(); Date.now() - since < SECONDS * 1000; ) {
    if (readdirSync(folder).includes(name) && !readdirSync(folder).some((it) => /\.(part|crdownload)$/.test(it))) {
      const bytes = readFileSync(path.join(folder, name));
      if (bytes.length > 0) {
        return bytes;
      }
    }
    await rest(40);
  }
  throw new Error(`${name} was never saved: ${readdirSync(folder)}`);
}

const PNG = Buffer.from('89504e470d0a1a0a', 'hex');

const CASES = {
  'a text is drawn and judged as it is typed': async (page) => {
    await until(page, isDrawn('source'));
    await typeAll(page, pair());
    await until(page, isDrawn('a'));
    assert.equal(await page.evaluate(verdict), 'check: yes, the drawing keeps all rules');
    assert.deepEqual(await page.evaluate(texts), ['a', 'b']);
  },

  'the drawing has arrow heads where that is asked for': async (page) => {
    const heads = `document.getElementById('picture').shadowRoot.querySelectorAll('.edge path[stroke="none"]').length`;
    assert.equal(await page.evaluate(heads), 1);
    for (const count of [0, 1]) {
      await page.evaluate(click('arrows'));
      await until(page, `${heads} === ${count}`);
    }
  },

  'a fault is told with its place, and leads there': async (page) => {
    await typeAll(page, pair({ 'elk.direction': 'ASIDE' }));
    const words = await until(page, `document.querySelector('#told button')?.textContent`);
    assert.match(words, /^line 1, column 47: an option of "pair" has an invalid value/);
    assert.deepEqual(await page.evaluate(`[...document.querySelectorAll('.CodeMirror-line .of-fault')].map((it) => it.innerText)`), ['"ASIDE"']);
    assert.equal(await page.evaluate(`${mirror}.getInputField().getAttribute('aria-invalid')`), 'true');
    await page.evaluate(`document.querySelector('#told button').click()`);
    assert.equal(await page.evaluate(selected), '"ASIDE"');
    await page.type('"DOWN"');
    await until(page, isDrawn('a'));
    assert.equal(await page.evaluate(`document.getElementById('told').hidden`), true);
  },

  'what was put in just now stays when the page is arranged anew': async (page) => {
    const before = await page.evaluate(textOfPage);
    await page.evaluate(`(async () => {
      ${mirror}.focus();
      ${mirror}.setCursor(0, 1);
      document.execCommand('insertText', false, ' ');
      const { style } = document.getElementById('editor');
      for (const height of ['100px', '']) {
        style.maxHeight = height;
        await new Promise((resolve) => requestAnimationFrame(() => setTimeout(resolve)));
      }
    })()`);
    await until(page, isDrawn('a'));
    assert.equal(await page.evaluate(textOfPage), before.replace('{', '{ '));
  },

  'a long layout is stopped, and the page stays free meanwhile': async (page) => {
    await putIn(page, slow());
    await until(page, `!document.getElementById('busy').hidden`);
    const late = await page.evaluate(`(async () => {
      let [most, last] = [0, performance.now()];
      for (let at = 0; at < 20; at += 1) {
        await new Promise((resolve) => setTimeout(resolve, 20));
        most = Math.max(most, performance.now() - last);
        last = performance.now();
      }
      return most;
    })()`);
    assert.ok(late < 1000, `a tick came ${late} ms late`);
    await page.evaluate(click('stop'));
    assert.equal(await page.evaluate(`document.getElementById('busy').hidden`), true);
    assert.match(await page.evaluate(`document.getElementById('status').textContent`), /^Stopped/);
    await putIn(page, pair());
    await until(page, isDrawn('b'));
  },

  'a newer text ends a layout that takes long': async (page) => {
    await putIn(page, slow());
    await until(page, `!document.getElementById('busy').hidden`);
    await putIn(page, pair().replaceAll('"b"', '"newer"'));
    await until(page, isDrawn('newer'));
    assert.equal(await page.evaluate(`document.getElementById('busy').hidden`), true);
  },

  'keys move the drawing and light its edges': async (page) => {
    await page.evaluate(`document.getElementById('stage').focus()`);
    const fitted = await page.evaluate(viewBox);
    await page.press('+');
    await page.press('ArrowLeft');
    await until(page, `${viewBox} !== '${fitted}'`);
    await page.press('0');
    await until(page, `${viewBox} === '${fitted}'`);
    await page.press('e');
    assert.match(await until(page, `document.getElementById('lit').textContent`), /^line: a → newer$/);
    await page.press('Enter');
    assert.equal(await page.evaluate(selected), '"line"');
    await page.evaluate(`document.getElementById('stage').focus()`);
    await page.press('Escape');
    await until(page, `document.getElementById('lit').textContent === ''`);
  },

  'a click on a node leads to its text': async (page) => {
    const [x, y] = await page.evaluate(`(() => {
      const node = document.getElementById('picture').shadowRoot.querySelector('[data-id=newer]');
      const { left, top, width, height } = node.getBoundingClientRect();
      return [left + width / 2, top + height / 2];
    })()`);
    await page.click(x, y);
    assert.equal(await until(page, selected), '"newer"');
  },

  'every control has a name': async (page) => {
    const nameless = await page.evaluate(`[...document.querySelectorAll('button, input, select, [contenteditable=true], [tabindex]:not([tabindex="-1"]), progress')]
      .filter((it) => !(it.ariaLabel || it.innerText || it.labels?.[0]?.innerText)).map(({ id, outerHTML }) => id || outerHTML)`);
    assert.deepEqual(nameless, []);
    assert.equal(await page.evaluate(`document.querySelector('footer').getAttribute('role')`), 'status');
  },

  'the drawing is saved as SVG, as PNG and as a placed document': async (page, folder) => {
    for (const kind of ['svg', 'png', 'json']) {
      await page.evaluate(click(kind));
      await until(page, `document.getElementById('status').textContent === 'Saved as pair.${kind}.'`);
    }
    const svg = (await savedFile(folder, 'pair.svg')).toString();
    assert.deepEqual(elementsOfXml(svg).filter(({ name }) => name === 'text').map(({ content }) => content), ['a', 'newer']);
    const png = await savedFile(folder, 'pair.png');
    assert.deepEqual(png.subarray(0, 8), PNG);
    const placed = JSON.parse(await savedFile(folder, 'pair.json'));
    assert.equal(png.readUInt32BE(16), (placed.width + 16) * 2);
    assert.equal(placed.edges[0].sections.length, 1);
  },

  'a link brings the document back': async (page) => {
    await page.evaluate(click('link'));
    const link = await until(page, `location.hash && location.href`);
    const text = await page.evaluate(textOfPage);
    await page.open('about:blank');
    await page.open(link);
    await until(page, isDrawn('newer'));
    assert.equal(await page.evaluate(textOfPage), text);
  },

  'a reload keeps the text, even if a link of a former one was copied': async (page) => {
    await page.evaluate(click('link'));
    await until(page, `location.hash`);
    await putIn(page, pair().replaceAll('"a"', '"kept"'));
    await until(page, isDrawn('kept'));
    assert.equal(await page.evaluate(`location.hash`), '');
    await page.open(await page.evaluate(`location.href`));
    await until(page, isDrawn('kept'));
    assert.match(await page.evaluate(textOfPage), /"kept"/);
  },

  'a word that is dragged within the editor stays a word': async (page) => {
    const before = await page.evaluate(textOfPage);
    await page.evaluate(`(() => {
      const line = document.querySelector('.CodeMirror-line');
      const { left, top, height } = line.getBoundingClientRect();
      const dataTransfer = new DataTransfer();
      dataTransfer.setData('text/plain', ' ');
      const at = { clientX: left + 5, clientY: top + height / 2, bubbles: true, cancelable: true };
      for (const kind of ['dragover', 'drop']) {
        line.dispatchEvent(new DragEvent(kind, { dataTransfer, ...at }));
      }
    })()`);
    const after = await page.evaluate(textOfPage);
    assert.equal(after.length, before.length + 1);
    assert.equal(after.replace(' ', ''), before.replace(' ', ''));
    await until(page, isDrawn('kept'));
  },

  'undoing comes back over a large example': async (page) => {
    const before = await page.evaluate(textOfPage);
    await page.evaluate(openExample('large'));
    assert.ok((await page.evaluate(textOfPage)).length > 100_000);
    await undo(page);
    assert.equal(await page.evaluate(textOfPage), before);
    await until(page, isDrawn('kept'));
  },

  'undoing out of a placed document lays out again': async (page) => {
    await page.evaluate(openExample('overlap'));
    await until(page, `${verdict}.startsWith('check: no')`);
    const way = `document.getElementById('way').value`;
    assert.equal(await page.evaluate(way), 'placed');
    await undo(page);
    assert.equal(await page.evaluate(way), 'layout');
    await until(page, isDrawn('kept'));
  },

  'what is told of a text goes with it': async (page) => {
    await putIn(page, pair());
    await until(page, isDrawn('a'));
    assert.equal(await page.evaluate(`(${mirror}.replaceRange(' ', { line: 0, ch: 1 }), ${isHidden('verdict')})`), true);
    await putIn(page, pair({ 'elk.direction': 'ASIDE' }));
    await until(page, `!${isHidden('told')}`);
    await putIn(page, slow());
    assert.equal(await page.evaluate(`document.getElementById('told').inert`), true);
    await until(page, `!${isHidden('busy')}`);
    await page.evaluate(click('stop'));
    assert.deepEqual(await page.evaluate(`[${isHidden('told')}, ${isHidden('verdict')}]`), [true, true]);
  },

  'the classes of a document mean nothing to the page': async (page) => {
    const styled = (element, names) => ({ ...element, style: { class: names, stroke: '#112233' } });
    const { children: [a, b], edges: [line], ...root } = JSON.parse(pair());
    const children = [styled(a, 'target lit edge'), styled(b, 'moving')];
    await putIn(page, JSON.stringify({ ...root, children, edges: [styled(line, 'node lighting')] }));
    await until(page, isDrawn('a'));
    const [strokes, titles] = await page.evaluate(`(() => {
      const all = [...document.getElementById('picture').shadowRoot.querySelectorAll('[data-id=a], [data-id=b], [data-id=line]')];
      return [all.map((it) => getComputedStyle(it).stroke), all.map((it) => getComputedStyle(it).opacity)];
    })()`);
    assert.deepEqual([strokes, titles], [Array(3).fill('rgb(17, 34, 51)'), ['1', '1', '1']]);
    await page.evaluate(`document.getElementById('stage').focus()`);
    for (let press = 0; press < 2; press += 1) {
      await page.press('e');
      assert.equal(await until(page, `document.getElementById('lit').textContent`), 'line: a → b');
    }
    await page.press('Escape');
  },

  'keys reach nodes': async (page) => {
    await page.evaluate(`document.getElementById('stage').focus()`);
    await page.press('n');
    await page.press('n');
    assert.equal(await until(page, `document.getElementById('lit').textContent`), 'b');
    await page.press('Enter');
    assert.equal(await page.evaluate(selected), '"b"');
  },

  'arrows come and go without a layout': async (page) => {
    await page.evaluate(`(() => {
      const { postMessage } = Worker.prototype;
      window.asked = [];
      Worker.prototype.postMessage = function (message) {
        window.asked.push(message.kind);
        return postMessage.call(this, message);
      };
    })()`);
    const heads = `document.getElementById('picture').shadowRoot.querySelectorAll('g[data-id] path[stroke="none"]').length`;
    for (const count of [0, 1]) {
      await page.evaluate(click('arrows'));
      await until(page, `${heads} === ${count}`);
    }
    assert.deepEqual(await page.evaluate('window.asked'), ['picture', 'picture']);
  },

  'a document that is nested too deep is told so': async (page) => {
    const nested = (open, close) => `{"id":"r","width":9,"height":9,${open.repeat(3000)}${close.repeat(3000)}}`;
    const cases = [nested('"children":[{"id":"a",', '"x":0}]').replaceAll(',"x"', ',"x"'), `{"id":"r","width":9,"height":9,"data":${'['.repeat(3000)}${']'.repeat(3000)}}`];
    for (const way of ['layout', 'placed']) {
      for (const text of cases) {
        await putIn(page, text);
        await page.evaluate(choose('way', way));
        await until(page, `!document.getElementById('told').inert && /nested|drawing keeps/.test(${toldWords} + ${verdict} + document.getElementById('status').innerText)`);
        assert.doesNotMatch(await page.evaluate(toldWords), /stack|recursion|could not be done/i);
      }
    }
    await page.evaluate(choose('way', 'layout'));
  },

  'formatting changes no number': async (page) => {
    await putIn(page, pair().replace('"pair"', '12345678901234567890'));
    await page.evaluate(click('format'));
    assert.match(await page.evaluate(textOfPage), /^\{\n  "id": 12345678901234567890,\n/);
  },

  'the border is wide enough to be met': async (page) => {
    const width = await page.evaluate(`(() => {
      const { left, right, top, height } = document.getElementById('border').getBoundingClientRect();
      let count = 0;
      for (let x = left - 30; x < right + 30; x += 1) {
        count += document.elementFromPoint(x + 0.5, top + height / 2).id === 'border' ? 1 : 0;
      }
      return count;
    })()`);
    assert.ok(width >= 24, `${width} pixels`);
  },

  'options are offered where they are written': async (page) => {
    await putIn(page, '{ "id": "r", "layoutOptions": {  } }');
    await page.evaluate(`${mirror}.focus(), ${mirror}.setCursor(0, 32), ${mirror}.showHint()`);
    const offered = `[...document.querySelectorAll('.CodeMirror-hint')].map((it) => it.innerText)`;
    assert.ok((await until(page, `(${offered}).length > 20 && ${offered}`)).some((it) => /^"elk\.direction"\s+elk\.direction: .*default RIGHT$/.test(it)));
    await page.evaluate(`[...document.querySelectorAll('.CodeMirror-hint')].find((it) => it.innerText.startsWith('"elk.direction"')).click()`);
    assert.equal(await page.evaluate(textOfPage), '{ "id": "r", "layoutOptions": { "elk.direction":  } }');
    await until(page, `document.getElementById('help').textContent.startsWith('elk.direction: ')`);
  },

  'controls write options into the text, and show those that are there': async (page) => {
    await putIn(page, pair());
    await until(page, isDrawn('a'));
    const control = (name) => `document.querySelector('#choices [data-option="${name}"]')`;
    const change = (name, value) => `(() => {
      const it = ${control(name)};
      it.value = '${value}';
      it.dispatchEvent(new Event('change'));
    })()`;
    await page.evaluate(change('direction', 'DOWN'));
    await until(page, isDrawn('a'));
    await page.evaluate(change('spacing.nodeNode', '55'));
    await until(page, isDrawn('a'));
    const { layoutOptions } = JSON.parse(await page.evaluate(textOfPage));
    assert.deepEqual(layoutOptions, { 'elk.spacing.nodeNode': 55, 'elk.direction': 'DOWN' });
    await putIn(page, pair({ 'elk.direction': 'left' }));
    await until(page, `${control('direction')}.value === 'LEFT' && ${control('spacing.nodeNode')}.value === ''`);
  },

  'edges are drawn with right angles, slanted, or as curves': async (page) => {
    const control = `document.querySelector('#choices [data-option=edgeRouting]')`;
    assert.deepEqual(await page.evaluate(`[...${control}.options].map(({ text }) => text)`), ['orthogonal', 'slanted', 'curves']);
    await page.evaluate(`(() => {
      const it = ${control};
      it.value = 'SPLINES';
      it.dispatchEvent(new Event('change'));
    })()`);
    await until(page, `(${textOfPage}).includes('"elk.edgeRouting": "SPLINES"')`);
    await until(page, isDrawn('a'));
  },

  'a text in DOT is known, drawn, and marked at its faults': async (page) => {
    await putIn(page, 'digraph pair {\n  a -> b [label="yes"]\n}\n');
    await until(page, isDrawn('b'));
    assert.deepEqual(await page.evaluate(texts), ['a', 'b', 'yes']);
    const form = `document.getElementById('form').value`;
    assert.deepEqual(await page.evaluate(`[${form}, document.getElementById('format').disabled, document.getElementById('way').disabled]`), ['dot', true, true]);
    await page.evaluate(`${mirror}.focus(), ${mirror}.setCursor(1, 4)`);
    const marked = `document.getElementById('picture').shadowRoot.querySelector('[data-marked]')?.dataset.id`;
    await until(page, `${marked} === 'a->b'`);
    await page.evaluate(`document.getElementById('stage').focus()`);
    await page.press('n');
    await page.press('n');
    await page.press('Enter');
    assert.equal(await page.evaluate(selected), 'b');
    await putIn(page, 'digraph pair {\n  a -> \n}\n');
    assert.match(await until(page, `document.querySelector('#told button')?.textContent`), /^line 3, column 1: expected a node or a subgraph/);
    assert.deepEqual(await page.evaluate(`[...document.querySelectorAll('.CodeMirror-line .of-fault')].map((it) => it.innerText)`), ['}']);
  },

  'controls write attributes into DOT, and tell which there are not': async (page) => {
    await putIn(page, 'digraph pair { a -> b }');
    await until(page, isDrawn('b'));
    await page.evaluate(`(() => {
      const it = document.querySelector('#choices [data-option=direction]');
      it.value = 'RIGHT';
      it.dispatchEvent(new Event('change'));
    })()`);
    assert.equal(await page.evaluate(textOfPage), 'digraph pair { rankdir=LR; a -> b }');
    await until(page, isDrawn('b'));
    const off = `[...document.querySelectorAll('#choices label')].filter((it) => it.querySelector(':disabled')).map((it) => it.title)`;
    assert.deepEqual(await page.evaluate(off), Array(2).fill('DOT has no attribute for this'));
  },

  'lines are drawn, and a text can be taken for another form': async (page) => {
    await putIn(page, 'read it -> b : then');
    await until(page, isDrawn('read it'));
    assert.deepEqual(await page.evaluate(texts), ['read it', 'b', 'then']);
    assert.equal(await page.evaluate(`document.getElementById('form').value`), 'lines');
    await page.evaluate(choose('form', 'json'));
    assert.match(await until(page, `document.querySelector('#told:not([inert]) .fault')?.textContent`), /JSON/);
    await page.evaluate(choose('form', 'lines'));
    await until(page, isDrawn('read it'));
  },

  'the drawing is copied as a picture': async (page) => {
    await page.evaluate(`(() => {
      navigator.clipboard.write = async ([item]) => {
        window.copied = [...new Uint8Array(await (await item.getType('image/png')).arrayBuffer())].slice(0, 8);
      };
    })()`);
    await page.evaluate(click('copy'));
    await until(page, `document.getElementById('status').textContent === 'The picture is copied.'`);
    assert.deepEqual(await page.evaluate('window.copied'), [...PNG]);
  },

  'the gallery has a picture of each example without a fault': async (page) => {
    await page.evaluate(click('examples'));
    const count = examples().length - 1;
    await until(page, `document.querySelectorAll('#cards svg').length === ${count}`);
    await page.evaluate(openExample('machine'));
    assert.equal(await page.evaluate(`document.getElementById('gallery').open`), false);
    await until(page, isDrawn('idle'));
  },

  'the caret marks its element in the drawing': async (page) => {
    const marked = `document.getElementById('picture').shadowRoot.querySelector('[data-marked]')?.dataset.id`;
    for (const [words, id] of [['"busy", "width"', 'busy'], ['"reset", "sources"', 'reset']]) {
      const at = (await page.evaluate(textOfPage)).indexOf(words);
      await page.evaluate(`${mirror}.focus(), ${mirror}.setCursor(${mirror}.posFromIndex(${at}))`);
      await until(page, `${marked} === '${id}'`);
    }
  },

  'a node is found by its id or its text': async (page) => {
    await page.evaluate(`(() => {
      const field = document.getElementById('sought');
      field.value = 'ON';
      field.dispatchEvent(new Event('input'));
    })()`);
    await until(page, `document.getElementById('found').textContent === '1 of 2'`);
    assert.equal(await page.evaluate(`document.getElementById('lit').textContent`), 'start');
    await page.evaluate(`document.getElementById('sought').focus()`);
    await page.press('Enter');
    await until(page, `document.getElementById('lit').textContent === 'done'`);
    await page.evaluate(click('fit'));
  },

  'what was meant is written by one click': async (page) => {
    await putIn(page, pair({ 'elk.directon': 'DOWN' }).replace('["b"]', '["B"]'));
    for (const words of ['Write "elk.direction"', 'Write "b"']) {
      await until(page, `!document.getElementById('told').inert && document.querySelectorAll('#told .mend').length > 0`);
      await page.evaluate(`[...document.querySelectorAll('#told .mend')].find((it) => it.innerText === '${words}').click()`);
    }
    await until(page, isDrawn('a'));
    assert.equal(await page.evaluate(textOfPage), pair({ 'elk.direction': 'DOWN' }));
  },

  'the theme is chosen, and kept': async (page) => {
    const colours = `[getComputedStyle(document.body).backgroundColor, getComputedStyle(document.getElementById('picture').shadowRoot.querySelector('svg > rect')).fill]`;
    await page.evaluate(choose('theme', 'dark'));
    assert.deepEqual(await page.evaluate(colours), ['rgb(22, 32, 43)', 'rgb(22, 32, 43)']);
    await page.open(await page.evaluate('location.href'));
    await until(page, isDrawn('a'));
    assert.deepEqual(await page.evaluate(colours), ['rgb(22, 32, 43)', 'rgb(22, 32, 43)']);
    await page.evaluate(choose('theme', 'auto'));
  },

  'paper gets the whole drawing': async (page) => {
    const fitted = await page.evaluate(viewBox);
    await page.evaluate(click('in'));
    await until(page, `${viewBox} !== '${fitted}'`);
    const zoomed = await page.evaluate(viewBox);
    const [x, y, width, height] = (await page.evaluate(`(dispatchEvent(new Event('beforeprint')), ${viewBox})`)).split(' ').map(Number);
    assert.ok(x === -8 && y === -8 && width > 0 && height > 0);
    assert.equal(await page.evaluate(`(dispatchEvent(new Event('afterprint')), ${viewBox})`), zoomed);
  },

  'texts that are too small to be read are not drawn': async (page) => {
    const shownTexts = `[...document.getElementById('picture').shadowRoot.querySelectorAll('text')].filter((it) => getComputedStyle(it).display !== 'none').length`;
    assert.equal(await page.evaluate(shownTexts), 2);
    await page.evaluate(openExample('large'));
    await until(page, isDrawn('n7'));
    assert.equal(await page.evaluate(shownTexts), 0);
    await undo(page);
    await until(page, isDrawn('a'));
    assert.equal(await page.evaluate(shownTexts), 2);
  },

  'the tour leads through five documents': async (page) => {
    await page.evaluate(click('newcomers'));
    for (const id of ['first', 'second', 'third', 'fourth', 'fifth']) {
      assert.match(await page.evaluate(textOfPage), new RegExp(`"id": "${id}"`));
      await page.evaluate(click('tour-next'));
    }
    assert.equal(await page.evaluate(isHidden('tour')), true);
  },

  'a broken link is told, and nothing is drawn in its place': async (page) => {
    await page.open('about:blank');
    await page.open(`${address}#z=AAAA`);
    await until(page, `!${isHidden('told')}`);
    assert.match(await page.evaluate(toldWords), /^The link carries no document that can be read/);
    assert.deepEqual(await page.evaluate(`[${textOfPage}, ${isHidden('verdict')}]`), ['', true]);
  },

  'a link that unpacks to very much is refused, and the page stays free': async (page) => {
    await page.open('about:blank');
    await page.open(`${address}${bomb()}`);
    await until(page, `!${isHidden('told')}`);
    assert.match(await page.evaluate(toldWords), /longer than 1 MiB/);
  },

  'text and drawing are seen at a zoom of 400%': async (page) => {
    await page.resize(320, 200);
    const heights = await page.evaluate(`['editor', 'stage'].map((id) => {
      const it = document.getElementById(id);
      it.scrollIntoView();
      const { top, bottom } = it.getBoundingClientRect();
      return Math.min(bottom, innerHeight) - Math.max(top, 0);
    })`);
    assert.ok(Math.min(...heights) >= 100, heights.join());
    assert.ok(await page.evaluate('document.documentElement.scrollWidth <= innerWidth'));
    await page.resize(1280, 800);
  },
};

const BROWSERS = {
  Chromium: {
    ...WITH_BROWSER,
    start: async (folder) => {
      const browser = new Browser();
      await browser.saveIn(folder);
      return { page: await browser.open(address, { width: 1280, height: 800 }), close: () => browser.close() };
    },
  },
  Firefox: {
    ...WITH_FIREFOX,
    start: async (downloads) => {
      const firefox = await Firefox.started({ downloads });
      return { page: await firefox.open(address, { width: 1280, height: 800 }), close: () => firefox.close() };
    },
  },
};

for (const [name, { skip, start }] of Object.entries(BROWSERS)) {
  test(`the playground in ${name}`, { skip: skip || WITH_MODULE.skip, timeout: 480_000 }, async (t) => {
    const folder = mkdtempSync(path.join(room, 'saved-'));
    const { page, close } = await start(folder);
    try {
      for (const [title, run] of Object.entries(CASES)) {
        await t.test(title, () => run(page, folder));
      }
      assert.deepEqual(page.faults ?? [], []);
    } finally {
      await close();
    }
  });
}
