'use strict';

const assert = require('node:assert/strict');
const { spawnSync } = require('node:child_process');
const { mkdirSync, mkdtempSync, readFileSync, rmSync, symlinkSync } = require('node:fs');
const { tmpdir } = require('node:os');
const path = require('node:path');
const test = require('node:test');
const { PROGRAM, TOP, WITH_PROGRAM } = require('./helpers/program');
const { elementsOfXml } = require('./helpers/xml');

const page = readFileSync(path.join(TOP, 'docs', 'EDITORS.md'), 'utf8');

/** Runs a script as a user would run it in a folder. */
function ran(script, cwd = TOP) {
  const environment = { ...process.env, ELK_DRAW_PROGRAM: PROGRAM };
  const words = ['--input-type=module', '--eval', script];
  const { status, stdout, stderr } = spawnSync(process.execPath, words, { cwd, encoding: 'utf8', env: environment, timeout: 120_000 });
  assert.deepEqual([status, stderr], [0, '']);
  return stdout;
}

const tried = new Set();

/** What the script of the page says that stands below a heading. */
function scriptBelow(heading) {
  tried.add(heading);
  const [, below] = page.split(`## ${heading}\n`);
  const [, script] = /```js\n(.*?)```/s.exec(below);
  return ran(script);
}

test('the first script of the page for editors draws a diagram', WITH_PROGRAM, () => {
  const texts = elementsOfXml(scriptBelow('Switching from elkjs')).filter(({ name }) => name === 'text');
  assert.deepEqual(texts.map(({ content }) => content).sort(), ['filters', 'high', 'low', 'sink', 'source']);
});

test('the refusal of the page says what the page says', WITH_PROGRAM, () => {
  const said = scriptBelow('What is refused').trim().split('\n');
  assert.deepEqual(said, [...page.matchAll(/console\.log\(.*\/\/ (.*)/g)].map(([, comment]) => comment));
});

test('the warning of the page says what the page says', WITH_PROGRAM, () => {
  assert.equal(scriptBelow('What has no effect').trim(), /await elk\.layout\(.*\/\/ (unknownOption .*)/.exec(page)[1]);
});

test('the flow of the page is placed', WITH_PROGRAM, () => {
  const places = scriptBelow('Ports and nesting, in the manner of React Flow');
  assert.deepEqual([...places.matchAll(/id: '(\w+)'/g)].map(([, id]) => id), ['read', 'group', 'parse', 'check']);
});

test('the labels of the page are in its picture', WITH_PROGRAM, () => {
  const texts = elementsOfXml(scriptBelow('Labels')).filter(({ name }) => name === 'text');
  const told = texts.map(({ content }) => content);
  for (const text of ['power on', 'idle', 'request / start timer', 'poll']) {
    assert.ok(told.includes(text), text);
  }
});

test('the circuit of the page has its junctions', WITH_PROGRAM, () => {
  assert.equal(scriptBelow('A circuit').match(/x: \d+, y: \d+/g).length, 4);
});

test('the second drawing of the page keeps the order of the first', WITH_PROGRAM, () => {
  const places = Object.fromEntries([...scriptBelow('Drawing again').matchAll(/(\w+) (\d+)/g)].map(([, id, y]) => [id, Number(y)]));
  assert.deepEqual(Object.keys(places).sort(), ['left', 'new', 'right', 'start']);
  assert.ok(places.left < places.right);
});

test('the layers of the page are those of its picture', WITH_PROGRAM, () => {
  assert.equal(scriptBelow('Layers'), readFileSync(path.join(TOP, 'docs', 'layers.svg'), 'utf8'));
});

test('the picture of the page has its shapes and colours', WITH_PROGRAM, () => {
  const picture = scriptBelow('Pictures');
  const texts = elementsOfXml(picture).filter(({ name }) => name === 'text').map(({ content }) => content);
  assert.deepEqual(texts.sort(), ['is it', 'new', 'paid?', 'ship', 'yes']);
  assert.match(picture, /#2b8a3e.*#ffe066/is);
});

test('the script of the package draws its graph', WITH_PROGRAM, (t) => {
  const room = mkdtempSync(path.join(tmpdir(), 'elk-pages-'));
  t.after(() => rmSync(room, { recursive: true }));
  mkdirSync(path.join(room, 'node_modules'));
  symlinkSync(path.join(TOP, 'adapters', 'js'), path.join(room, 'node_modules', 'elk-layout'));
  const [, script] = /```js\n(.*?)```/s.exec(readFileSync(path.join(TOP, 'adapters', 'js', 'README.md'), 'utf8'));
  assert.match(ran(`${script}console.log(placed.width, picture.slice(0, 4));`, room), /^\d+ <svg\n$/);
});

test('each script of the page is tried', WITH_PROGRAM, () => assert.equal(tried.size, page.match(/^```js$/gm).length));
