'use strict';
// Hostile use of the WebAssembly module, as tools/hostile tries it on the native program: refused memory, damaged input and the largest
// documents, all in one instance where no trap may have left it broken.

const assert = require('node:assert');
const { existsSync, readFileSync } = require('node:fs');
const path = require('node:path');
const test = require('node:test');
const { withMemoryLimit } = require('../adapters/js/src/module');
const { moduleBytes, moduleFile } = require('../adapters/js/src/module/file');

const PAGE = 2 ** 16;
const NO_MEMORY = { status: 6, out: '', notes: 'out of memory\n' };
// Before its words are read, the program doesn't know that the engine is meant, and says its own name.
const OF_ITS_WORDS = { ...NO_MEMORY, notes: 'elk-draw: out of memory\n' };
const SMALL =
  '{"id":"r","children":[{"id":"a","children":[{"id":"i"},{"id":"j"}],"edges":[{"id":"f","sources":["i"],"targets":["j"]}]},{"id":"b"}],"edges":[{"id":"e","sources":["a"],"targets":["b"]}]}';
const DOUBLE = '{"id":"r","children":[{"id":"a"},{"id":"a"}]}';

const options = moduleFile() ? {} : { skip: 'there is no module: release/ has none, and ELK_MODULE names none' };
const bytes = moduleFile() && moduleBytes();

// The module with the function that makes calls for memory fail, which `tools/wasm` writes beside the one that is released.
const FOR_TESTS = 'elk-draw-for-tests.wasm';
const besides = moduleFile() && path.join(path.dirname(moduleFile()), FOR_TESTS);
const isRefusing = Boolean(besides) && existsSync(besides);
const refusing = isRefusing ? {} : { skip: `there is no ${FOR_TESTS} beside the module: tools/wasm makes it` };

/** One instance of the module, of which each call is a run of the program. */
class Instance {
  #exports;
  #call;

  constructor(module) {
    const at = (pointer, length) => Buffer.from(this.#exports.memory.buffer, Number(pointer), Number(length));
    const host = {
      read: (_, pointer, length) => BigInt(this.#call.take(at(pointer, length))),
      write: (stream, pointer, length) => BigInt(this.#call.put(stream, at(pointer, length))),
      arg: (index, pointer, length) => argument(this.#call.words[Number(index)], at(pointer, length)),
    };
    this.#exports = new WebAssembly.Instance(module, { host }).exports;
  }

  /** Runs the program; with a number, that call for memory is refused, which only the module for tests can do. */
  run(words, given, refused) {
    const rest = { bytes: Buffer.from(given) };
    const written = { 1: [], 2: [] };
    this.#call = {
      words: ['elk-draw', ...words].map((word) => Buffer.from(word)),
      take: (room) => {
        const count = rest.bytes.copy(room);
        rest.bytes = rest.bytes.subarray(count);
        return count;
      },
      put: (stream, piece) => written[stream].push(Buffer.from(piece)) && piece.length,
    };
    if (refused !== undefined) {
      this.#exports.refuse_call(BigInt(refused));
    }
    const status = this.#exports.main(0, 0n);
    return { status, out: Buffer.concat(written[1]).toString(), notes: Buffer.concat(written[2]).toString() };
  }

  get memory() {
    return this.#exports.memory.buffer.byteLength;
  }
}

function argument(word, room) {
  if (!word) {
    return -1n;
  }
  word.copy(room);
  return BigInt(word.length);
}

const started = (limit) => new Instance(new WebAssembly.Module(limit ? withMemoryLimit(bytes, limit) : bytes));

const chain = (nodes) =>
  JSON.stringify({
    id: 'r',
    children: Array.from({ length: nodes }, (_, node) => ({ id: node + 1, width: 30, height: 30 })),
    edges: Array.from({ length: nodes - 1 }, (_, node) => ({ id: `e${node}`, sources: [node + 1], targets: [node + 2] })),
  });

/** A document of so many levels below its root. */
function levels(depth) {
  let document = `{"id":"n${depth}"}`;
  for (let level = depth - 1; level >= 0; level--) {
    document = `{"id":"n${level}","children":[${document}]}`;
  }
  return document;
}

const arrays = (depth) => `{"id":"r","labels":${'['.repeat(depth)}${']'.repeat(depth)}}`;
const padded = (size) => `{"id":"r","labels":"${' '.repeat(size - 22)}"}`;

const words = [
  { words: ['layout'], given: () => SMALL },
  { words: ['check'], given: (instance) => instance.run(['layout'], SMALL).out },
  { words: ['demo', '3'], given: () => '' },
  { words: ['batch'], given: () => `${SMALL}\n${DOUBLE}\n` },
];

test('the module exports its main function and its memory, and nothing for tests', options, () => {
  const names = WebAssembly.Module.exports(new WebAssembly.Module(bytes)).map(({ name }) => name);
  assert.deepStrictEqual(names.sort(), ['main', 'memory']);
});

for (const row of words) {
  test(`each call for memory refused in turn: ${row.words[0]}`, refusing, () => {
    const instance = new Instance(new WebAssembly.Module(readFileSync(besides)));
    const given = row.given(instance);
    const whole = instance.run(row.words, given);
    const memory = instance.memory;
    let number = 0;
    let isInWords = true;
    for (let seen; (seen = instance.run(row.words, given, number)).status === 6; number++) {
      const begun = row.words[0] === 'batch' && whole.out.startsWith(seen.out) ? seen.out : '';
      const isOfWords = isInWords && seen.notes === OF_ITS_WORDS.notes;
      isInWords = isOfWords;
      assert.deepStrictEqual(seen, isOfWords ? OF_ITS_WORDS : { ...NO_MEMORY, out: begun }, `call ${number}`);
    }
    assert.ok(number > 10, `only ${number} calls were refused`);
    assert.deepStrictEqual(instance.run(row.words, given, number), whole, 'a run with no call left to refuse');
    assert.strictEqual(instance.memory, memory, 'a refused run keeps memory');
  });
}

test('limits of memory up to what a document takes', options, () => {
  const document = chain(600);
  const free = started();
  const least = free.memory;
  const whole = free.run(['layout'], document);
  assert.strictEqual(whole.status, 0);
  for (let limit = least; limit < free.memory; limit += 8 * PAGE) {
    const instance = started(limit);
    const seen = instance.run(['layout'], document);
    assert.deepStrictEqual(seen.status === 0 ? whole : NO_MEMORY, seen, `${limit} bytes`);
    assert.ok(instance.memory <= limit);
    assert.deepStrictEqual(instance.run(['layout'], SMALL), free.run(['layout'], SMALL), `a small document after it, in ${limit} bytes`);
  }
});

test('every beginning of a document', options, () => {
  const instance = started();
  const document = readFileSync(path.join(__dirname, '../examples/diagram.json')).toString().trim();
  for (let length = 0; length < document.length; length++) {
    const seen = instance.run(['layout'], document.slice(0, length));
    assert.deepStrictEqual(seen, { status: 2, out: '', notes: 'refused 1 NotJson -\n' }, `the first ${length} bytes`);
  }
});

const limits = [
  { name: '126 arrays', given: arrays(126), status: 0 },
  { name: '127 arrays', given: arrays(127), status: 2, notes: 'refused 1 NotJson -\n' },
  { name: '50 levels', given: levels(50), status: 0 },
  { name: '51 levels', given: levels(51), status: 2, notes: 'refused 6 TooDeep -\n' },
  { name: '2^24 bytes', given: padded(2 ** 24), status: 0 },
  { name: '2^24 + 1 bytes', given: padded(2 ** 24 + 1), status: 2, notes: 'refused 0 TooLong -\n' },
  { name: 'a chain of 2,047 nodes', given: chain(2047), status: 0 },
  { name: '2,048 nodes', given: chain(2048), status: 2, notes: 'refused 5 TooMany -\n' },
];

test('the largest documents that are taken, and the smallest that are not', options, async (t) => {
  const instance = started();
  for (const { name, given, status, notes = '' } of limits) {
    await t.test(name, () => {
      const seen = instance.run(['layout'], given);
      assert.deepStrictEqual({ status: seen.status, notes: seen.notes }, { status, notes });
      if (status === 0) {
        assert.deepStrictEqual(instance.run(['check'], seen.out), { status: 0, out: 'yes\n', notes: '' });
      }
    });
  }
});

test('a chain of 2,047 nodes takes 25 MB at most', options, () => {
  const instance = started();
  assert.strictEqual(instance.run(['layout'], chain(2047)).status, 0);
  assert.ok(instance.memory <= 25e6, `it takes ${instance.memory} bytes`);
});

test('a word that is too long for the program is one that is not taken', options, () => {
  assert.strictEqual(started().run(['x'.repeat(2 ** 17)], '').status, 5);
});

test('a thousand layouts leave the memory where the tenth left it', options, () => {
  const instance = started();
  const documents = [SMALL, chain(30), readFileSync(path.join(__dirname, '../examples/circuit.json')).toString(), DOUBLE];
  let memory;
  for (let count = 0; count < 1000; count++) {
    instance.run(['layout'], documents[count % documents.length]);
    memory = count < 10 ? instance.memory : memory;
  }
  assert.strictEqual(instance.memory, memory);
});
