'use strict';

const assert = require('node:assert/strict');
const { spawnSync } = require('node:child_process');
const { mkdtempSync, readFileSync, rmSync, writeFileSync } = require('node:fs');
const { tmpdir } = require('node:os');
const path = require('node:path');
const test = require('node:test');
const { gzipSync } = require('node:zlib');
const { Program, withMemoryLimit } = require('../src/module');
const { ProgramError } = require('../src/errors');
const { PUPPET_MODULE } = require('./helpers/module');

const PUPPET = readFileSync(PUPPET_MODULE);
const COMMAND = path.join(__dirname, '..', 'bin', 'elk-draw');
const PAGE = 2 ** 16;

const programOf = (bytes) => new Program(new WebAssembly.Module(bytes));

/** Runs the puppet on an input: its status and what it wrote to either stream. */
function run(program, input, words = []) {
  let rest = Buffer.from(input);
  const written = { 1: '', 2: '' };
  const read = (room) => {
    const count = rest.copy(room);
    rest = rest.subarray(count);
    return count;
  };
  const write = (bytes, stream) => {
    written[stream] += Buffer.from(bytes);
    return bytes.length;
  };
  return { status: program.run(words, { read, write }), out: written[1], notes: written[2] };
}

function command(input, environment = {}) {
  const env = { ...process.env, ELK_MODULE: PUPPET_MODULE, ...environment };
  return spawnSync(COMMAND, ['one', 'two'], { input, encoding: 'utf8', env });
}

test('words, input and output pass through a module', () => {
  const text = 'any input that is longer than a piece, é 😀';
  assert.deepEqual(run(programOf(PUPPET), text, ['batch', '', 'long words']), {
    status: 0,
    out: text,
    notes: 'elk-draw\nbatch\n\nlong wor\n',
  });
});

test('one instance serves many calls, and none after a trap', () => {
  const program = programOf(PUPPET);
  assert.deepEqual([1, 2, 3].map(() => run(program, 'N').status), [1, 2, 3]);
  assert.throws(() => run(program, 'T'), (error) => error instanceof ProgramError && /ended by a trap/.test(error.message));
  assert.deepEqual([1, 2].map(() => run(program, 'N').status), [1, 2]);
});

test('a host that fails within a call ends the instance', () => {
  const program = programOf(PUPPET);
  run(program, 'N');
  const read = () => {
    throw new Error('no input');
  };
  assert.throws(() => program.run([], { read, write: ({ length }) => length }), /no input/);
  assert.equal(run(program, 'N').status, 1);
});

test('streams that fail are reported to the module', () => {
  const program = programOf(PUPPET);
  assert.equal(program.run([], { read: () => -1, write: ({ length }) => length }), 3);
  assert.equal(program.run([], { read: (room) => room.fill(65).length, write: (_, stream) => (stream === 1 ? -1 : 1) }), 4);
});

test('memory is refused beyond a limit, and the instance serves on', () => {
  const program = programOf(withMemoryLimit(PUPPET, 18 * PAGE));
  assert.deepEqual(['G', 'G', 'N'].map((input) => run(program, input).status), [0, 6, 3]);
  assert.equal(run(programOf(withMemoryLimit(PUPPET, 18 * PAGE - 1)), 'G').status, 6);
  assert.equal(run(programOf(withMemoryLimit(withMemoryLimit(PUPPET, 2 * PAGE), 2 ** 32)), 'G').status, 0);
  assert.throws(() => withMemoryLimit(PUPPET, PAGE), /a limit of 65536 bytes is below the 131072/);
});

test('an instance that has grown large is let go', () => {
  const program = programOf(PUPPET);
  // Each G takes one megabyte.
  assert.equal(run(program, 'G'.padEnd(16).repeat(200)).status, 0);
  assert.equal(run(program, 'N').status, 2);
  assert.equal(run(program, 'G'.padEnd(16).repeat(200)).status, 0);
  assert.equal(run(program, 'N').status, 1);
});

test('the command has the words, streams and statuses of its module', () => {
  const { status, stdout, stderr } = command('text');
  assert.deepEqual({ status, stdout, stderr }, { status: 0, stdout: 'text', stderr: 'elk-draw\none\ntwo\n' });
  assert.equal(command('N').status, 1);
  assert.equal(command('G', { ELK_MEMORY: String(2 ** 20) }).status, 6);
});

test('the command says why it has no program to run', () => {
  const seen = (input, environment) => {
    const { status, stderr } = command(input, environment);
    return [status, stderr.replace('elk-draw\none\ntwo\n', '')];
  };
  assert.deepEqual(seen('T'), [70, 'elk-draw: the program was ended by a trap: unreachable\n']);
  const limit = 'elk-draw: a limit of 5 bytes is below the 131072 with which the program starts\n';
  assert.deepEqual(seen('', { ELK_MEMORY: '5' }), [70, limit]);
  const [status, note] = seen('', { ELK_MODULE: '/no/such/module' });
  assert.equal(status, 70);
  assert.match(note, /^elk-draw: the module \/no\/such\/module can't be read: /);
});

test('a packed module is as good as a plain one', (t) => {
  const room = mkdtempSync(path.join(tmpdir(), 'elk-'));
  t.after(() => rmSync(room, { recursive: true }));
  const file = path.join(room, 'packed');
  writeFileSync(file, gzipSync(PUPPET));
  assert.equal(command('text', { ELK_MODULE: file }).stdout, 'text');
});
