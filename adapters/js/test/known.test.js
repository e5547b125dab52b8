'use strict';
// The options that the package knows, against the page of the format.

const assert = require('node:assert/strict');
const { readFileSync } = require('node:fs');
const path = require('node:path');
const test = require('node:test');
const { adapter, elk, options } = require('../data/options.json');
const ELK = require('../src/elk');
const { TOP } = require('./helpers/program');

const FORMAT = readFileSync(path.join(TOP, 'docs', 'FORMAT.md'), 'utf8');

const TARGETS = { levels: ['PARENTS'], nodes: ['NODES', 'PARENTS'], ports: ['PORTS'], edges: ['EDGES'] };

/** The rows of the table of options, each as its cells. */
function rows() {
  const [, text] = FORMAT.split('## Options\n');
  const lines = text.split('\n## ')[0].split('\n').filter((line) => line.startsWith('| '));
  return lines.slice(1).map((line) => line.slice(2, -2).split(' | '));
}

const plain = (cell) => cell.replaceAll('`', '');

test('the options of the format are known with its texts', async () => {
  const known = new Map((await new ELK({ program: '/none' }).knownLayoutOptions()).map((option) => [option.id, option]));
  const told = rows().flatMap(([cell, at, values, byDefault]) => [...cell.matchAll(/`([^`]+)`/g)].map(([, name]) => ({ name, at, values, byDefault })));
  assert.equal(told.length, options.length);
  for (const { name, at, values, byDefault } of told) {
    const { description, targets } = known.get(`org.eclipse.elk.${name}`);
    assert.deepEqual([description, targets], [`${plain(values)}; default ${plain(byDefault)}`, TARGETS[at]], name);
  }
});

test('options of labels, layers and parts are known too, and none twice', async () => {
  const known = await new ELK({ program: '/none' }).knownLayoutOptions();
  const ids = known.map(({ id }) => id);
  assert.deepEqual(adapter.filter(({ name }) => !ids.includes(`org.eclipse.elk.${name}`)), []);
  assert.equal(new Set(ids).size, ids.length);
  assert.deepEqual(known.find(({ id }) => id.endsWith('.edgeLabels.placement')).targets, ['EDGES', 'LABELS']);
  assert.equal(new Set(elk).size, elk.length);
});
