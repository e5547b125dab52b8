'use strict';
// The options of data/options.json against those of the program, value by value.

const assert = require('node:assert/strict');
const test = require('node:test');
const { options: OPTIONS } = require('../data/options.json');
const { run, WITH_PROGRAM } = require('./helpers/program');

const PREFIXES = ['org.eclipse.elk.', 'elk.', ''];

/** A document in which an option stands at an element that reads it. */
function documentWith({ name, at }, value, prefix = 'elk.') {
  const options = { layoutOptions: { [prefix + name]: value } };
  const port = { id: 'p', ...(at === 'ports' && options) };
  const edge = { id: 'e', sources: ['a'], targets: ['b'], ...(at === 'edges' && options) };
  return {
    id: 'r',
    ...(at === 'levels' && options),
    children: [{ id: 'a', width: 30, height: 30, ports: [port], ...(at === 'nodes' && options) }, { id: 'b' }, { id: 'c' }],
    // A level of boxes has no edges.
    edges: JSON.stringify(value).includes('box') ? [] : [edge],
  };
}

const changed = (text) => [...text].map((letter, at) => (at % 2 ? letter.toLowerCase() : letter)).join('');

const WRONG = [null, [], {}, '', ' ', '-', 1.5, 'NO_SUCH', '1.5', '1e3', '+1', '0x1', true, '\u0130'];

const TAKEN = {
  STRING: () => ['layered', 'elk.layered', 'org.eclipse.elk.layered', 'box', 'elk.box', 'org.eclipse.elk.box'],
  ENUM: ({ values }) => [...values, ...values.map((value) => value.toLowerCase()), ...values.map(changed)],
  INT: ({ low, high }) => [low, high, 1, String(low), `${high}.0`, '007', '1.000'],
  BOOLEAN: () => [true, false, 'true', 'false', 'TRUE', 'False'],
  OBJECT: ({ high }) => ['[]', ' [ ] ', `[top=${high}]`, '[ left = 3 , top=4.00 ]', '[top=1,left=2,bottom=3,right=0]'],
};

const REFUSED = {
  STRING: () => [...WRONG, 'LAYERED', 'eclipse.elk.layered', 'stress', 'layered '],
  ENUM: ({ values }) => [...WRONG, 0, `${values[0]} `, values.join()],
  INT: ({ low, high }) => [
    ...WRONG,
    ...[low - 1, high + 1, String(low - 1), String(high + 1), `${high + 1}.0`, '1.', '.0', ' 1', '1 ', '--1', '9'.repeat(40)],
  ],
  BOOLEAN: () => [...WRONG.filter((value) => value !== true), 1, 0, 'yes', 'true '],
  OBJECT: ({ high }) => [...WRONG, '[top=-1]', '[top=1,top=1]', '[top=1,]', 'top=1', `[top=${high + 1}]`, '[Top=1]', '[top 1]', 12],
};

/** What the program says of each document, one line for each. */
const replies = (documents) =>
  run(['batch'], documents.map((document) => `${JSON.stringify(document)}\n`).join('')).stdout.trimEnd().split('\n');

function saysOf(option, values, prefix) {
  const said = replies(values.map((value) => documentWith(option, value, prefix)));
  return said.map((reply, at) => [reply.startsWith('{'), prefix + option.name, values[at], reply.slice(0, 40)]);
}

test('each value of an option is taken, under each spelling', WITH_PROGRAM, () => {
  for (const option of OPTIONS) {
    for (const prefix of PREFIXES) {
      const values = TAKEN[option.type](option);
      assert.deepEqual(saysOf(option, values, prefix).filter(([isTaken]) => !isTaken), []);
    }
  }
});

test('every other value of an option is refused', WITH_PROGRAM, () => {
  for (const option of OPTIONS) {
    const said = saysOf(option, REFUSED[option.type](option), 'elk.');
    const isRight = ([, , , reply]) => /^refused (11 OptionValue|2 NotWhole)/.test(reply);
    assert.deepEqual(said.filter((row) => !isRight(row)), []);
  }
});

test('a default draws what no value draws', WITH_PROGRAM, () => {
  // A node without a position has none.
  for (const option of OPTIONS.filter(({ name }) => name !== 'layered.position')) {
    const byDefault = option.type === 'OBJECT' ? '[top=12,left=12,bottom=12,right=12]' : option.default;
    const drawn = replies([documentWith(option, byDefault), documentWith({ ...option, name: 'none' }, byDefault)]);
    const [asked, usual] = drawn.map((reply) => reply.replace(/"layoutOptions":\{[^}]*\},?/g, ''));
    assert.equal(asked, usual, option.name);
  }
});

test('an element reads the options that stand at it alone', WITH_PROGRAM, () => {
  const places = ['levels', 'nodes', 'ports', 'edges'];
  for (const option of OPTIONS) {
    const said = replies(places.map((at) => documentWith({ ...option, at }, 'NO_SUCH')));
    const readers = places.filter((_, at) => said[at].startsWith('refused'));
    assert.deepEqual(readers, option.at === 'nodes' ? ['levels', 'nodes'] : [option.at], option.name);
  }
});
