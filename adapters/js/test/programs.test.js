'use strict';
// Programs in strict TypeScript that users of elkjs might have written: they are compiled and run with the tarball alone.

const assert = require('node:assert/strict');
const { cpSync, mkdtempSync, readdirSync, rmSync, writeFileSync } = require('node:fs');
const { tmpdir } = require('node:os');
const path = require('node:path');
const test = require('node:test');
const { pathToFileURL } = require('node:url');
const { Browser, WITH_BROWSER } = require('./helpers/browser');
const { Firefox, WITH_FIREFOX } = require('./helpers/firefox');
const { WITH_NPM, installed, needs, packed, run } = require('./helpers/packed');

const PROGRAMS = path.join(__dirname, 'helpers', 'programs');

const WITH_COMPILER = { skip: WITH_NPM.skip || needs('tsc'), timeout: 300_000 };

/** What each run prints, in Node and in each page. */
const TOLD = {
  'absolute-places': [true, 2, 1],
  'dynamic-import': [12, 62],
  'edge-path': [['M 42 22 L 62 22'], []],
  'known-options': [true, true, true],
  'langium-factory': [12, 62],
  mermaid: [12, 72, 72],
  'namespace-import': [12, 62],
  netlist: [true, 1],
  'options-builder': [33, 3, true],
  'own-nodes': [['me', 'A at 12, 12', 'B at 62, 12'], [12, 62]],
  'primitive-edges': ['l0'],
  'reactflow-elements': [[[[37, 12], [12, 152], [242, 152], [37, 292]], [[12, 19], [262, 12], [262, 132], [512, 19]]], 2],
  'reactflow-hook': [[12, 'a'], [162, 'b']],
  'reactflow-ports': [12, 182],
  service: [[12, 62], [12, 62]],
  sprotty: { graph: [0, 0], s: [54, 12], p: [18, 30], l: [5, 5], g: [12, 67], c: [12, 12], d: [72, 12], cd: true, pg: true },
  state: ['a', 'b'],
  'vue-ref': [[12, 62], false],
};

const TOLD_IN_NODE = {
  additions: [88, ['DoubleId'], 1, '<svg', true],
  diagram: ['function', true],
  'worker-factory': 24,
};

let room;
let user;

test.before(() => {
  if (WITH_COMPILER.skip) {
    return;
  }
  room = mkdtempSync(path.join(tmpdir(), 'elk-programs-'));
  user = installed(room, packed(room), 'elkjs');
  cpSync(PROGRAMS, path.join(user, 'programs'), { recursive: true });
});

test.after(() => rmSync(room ?? '', { recursive: true, force: true }));

const compile = (words) => run(user, ['tsc', '--project', 'programs', ...words.split(' ')]);

for (const way of ['--module commonjs', '--module node16 --esModuleInterop']) {
  test(`they compile with ${way}`, WITH_COMPILER, () => assert.equal(compile(`${way} --noEmit`), ''));
}

const ALL = `async (runs) => Object.fromEntries(await Promise.all(Object.entries(runs).map(async ([name, run]) => [name, await run()])))`;

test('they compile with --module commonjs --esModuleInterop, and run in Node', WITH_COMPILER, () => {
  assert.equal(compile('--module commonjs --esModuleInterop --outDir made'), '');
  const script = `
    console.log = () => {};
    globalThis.Worker = require('elkjs/lib/elk-worker.min.js').Worker;
    const { RUNS } = require('./made/runs');
    const { NODE_RUNS } = require('./made/node-runs');
    (${ALL})({ ...RUNS, ...NODE_RUNS }).then((told) => {
      process.stdout.write(JSON.stringify(told));
      process.exit();
    });`;
  const told = JSON.parse(run(user, [process.execPath, '--eval', script]));
  assert.deepEqual(told, { ...TOLD, ...TOLD_IN_NODE });
});

test('each program is run', () => {
  const names = readdirSync(PROGRAMS).map((file) => path.parse(file)).filter(({ ext, name }) => ext === '.ts' && !name.endsWith('runs'));
  const run = [...Object.keys({ ...TOLD, ...TOLD_IN_NODE }), 'literal', 'sprotty-apply', 'sprotty-transform'];
  assert.deepEqual(names.map(({ name }) => name).sort(), run.filter((name) => name !== 'sprotty').sort());
});

/** The page that runs the programs, bundled. */
function page() {
  run(user, ['esbuild', 'programs/runs.ts', '--bundle', '--global-name=programs', '--outfile=page.js', '--log-level=error']);
  writeFileSync(path.join(user, 'page.html'), '<!doctype html><meta charset="utf-8"><script src="page.js"></script>');
  return pathToFileURL(path.join(user, 'page.html')).href;
}

test('they run in Chromium', { ...WITH_COMPILER, skip: WITH_COMPILER.skip || WITH_BROWSER.skip }, async () => {
  const browser = new Browser();
  try {
    const opened = await browser.open(page());
    assert.deepEqual(await opened.evaluate(`(${ALL})(programs.RUNS)`), TOLD);
    assert.deepEqual(opened.faults, []);
  } finally {
    await browser.close();
  }
});

test('they run in Firefox', { ...WITH_COMPILER, skip: WITH_COMPILER.skip || WITH_FIREFOX.skip }, async () => {
  const browser = await Firefox.started();
  try {
    await browser.open(page());
    assert.deepEqual(await browser.evaluate(`(${ALL})(programs.RUNS)`), TOLD);
  } finally {
    await browser.close();
  }
});
