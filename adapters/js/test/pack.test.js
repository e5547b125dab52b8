'use strict';
// The package as it is installed: from its tarball into an empty folder, without network and without the repository.

const assert = require('node:assert/strict');
const { mkdtempSync, rmSync, writeFileSync } = require('node:fs');
const { tmpdir } = require('node:os');
const path = require('node:path');
const test = require('node:test');
const { pathToFileURL } = require('node:url');
const { Browser, WITH_BROWSER } = require('./helpers/browser');
const { WITH_NPM, installed, packed, run } = require('./helpers/packed');

const WITH_BUNDLER = { skip: WITH_NPM.skip || WITH_BROWSER.skip };

let room;

test.before(() => {
  room = mkdtempSync(path.join(tmpdir(), 'elk-pack-'));
});

test.after(() => rmSync(room, { recursive: true, force: true }));

const LAY_OUT = `
new ELK().layout({ id: 'r', children: [{ id: 'a', width: 30, height: 30 }] })
  .then(({ width, height }) => console.log(width, height));`;

// As what runs tests of pages in Node takes it: without workers.
const FILE_FOR_PAGES = `require('node:path').join(require.resolve('elk-layout/package.json'), '..', 'lib', 'elk.bundled.js')`;

const WAYS = [
  ['--input-type=commonjs', `const ELK = require(${FILE_FOR_PAGES}); ${LAY_OUT}`],
  ['--input-type=commonjs', `const ELK = require('elk-layout'); ${LAY_OUT}`],
  ['--input-type=commonjs', `const { ELK } = require('elk-layout/lib/main'); ${LAY_OUT}`],
  ['--input-type=commonjs', `const ELK = require('elk-layout/lib/elk.bundled.js').default; ${LAY_OUT}`],
  ['--input-type=module', `import ELK from 'elk-layout'; ${LAY_OUT}`],
  ['--input-type=module', `import { ELK } from 'elk-layout'; ${LAY_OUT}`],
  ['--input-type=module', `import ELK from 'elk-layout/lib/elk.bundled.js'; ${LAY_OUT}`],
  [
    '--input-type=commonjs',
    `const Api = require('elk-layout/lib/elk-api');
     const { Worker } = require('elk-layout/lib/elk-worker.min.js');
     class ELK extends Api { constructor() { super({ workerFactory: () => new Worker() }); } } ${LAY_OUT}`,
  ],
  [
    '--input-type=commonjs',
    `const Whole = require('elk-layout');
     const workerUrl = require.resolve('elk-layout/lib/elk-worker.js');
     class ELK extends Whole { constructor() { super({ workerUrl }); } } ${LAY_OUT}`,
  ],
];

const HOSTED = `
const { readFileSync } = require('node:fs');
const { gunzipSync } = require('node:zlib');
const { Program, runText, withMemoryLimit } = require('elk-layout/module');

const bytes = gunzipSync(readFileSync(require.resolve('elk-layout/elk-draw.wasm.gz')));
const program = new Program(new WebAssembly.Module(withMemoryLimit(bytes, 2 ** 26)));
console.log(JSON.parse(runText(program, ['--json'], '{"id":"r"}').output).width);`;

const PICTURE = `console.log(require('elk-layout/svg').toSvg({ id: 'r', width: 9, height: 9 }))`;

test('the package answers a document where nothing else is', WITH_NPM, async (t) => {
  const tarball = packed(room);
  const user = installed(room, tarball);
  for (const [kind, script] of WAYS) {
    assert.equal(run(user, [process.execPath, kind, '--eval', script]), '54 54\n', script);
  }
  assert.equal(run(user, [process.execPath, '--eval', HOSTED]), '24\n');
  const element = `console.log(require('elk-layout/elk-diagram').name)`;
  assert.equal(run(user, [process.execPath, '--eval', element]), 'ElkDiagram\n');
  const command = (name) => path.join('node_modules', '.bin', name);
  const input = '{"id":"r","children":[{"id":"a","width":30,"height":30}]}';
  const placed = run(user, [command('elk-draw'), '--json'], { input });
  assert.equal(JSON.parse(placed).width, 54);
  assert.match(run(user, [command('elk-svg')], { input: placed }), /^<svg /);
  assert.match(run(user, [process.execPath, '--eval', PICTURE]), /^<svg /);

  await t.test('it stands in place of elkjs in Node and in the bundles of pages', WITH_BUNDLER, async () => {
    const switched = installed(room, tarball, 'elkjs');
    const paths = ['elkjs', 'elkjs/lib/elk.bundled.js', 'elkjs/lib/main'];
    for (const from of paths) {
      const words = ['--input-type=commonjs', '--eval', `const ELK = require('${from}'); ${LAY_OUT}`];
      assert.equal(run(switched, [process.execPath, ...words]), '54 54\n');
    }
    const imports = paths.map((from, at) => `import ELK${at} from '${from}';`);
    const calls = paths.map((_, at) => `new ELK${at}().layout({ id: 'r' }).then(({ width }) => width)`);
    writeFileSync(path.join(switched, 'app.js'), `${imports.join('\n')}\nwindow.widths = Promise.all([${calls}]);`);
    run(switched, ['esbuild', 'app.js', '--bundle', '--outfile=page.js', '--log-level=error']);
    writeFileSync(path.join(switched, 'page.html'), '<!doctype html><meta charset="utf-8"><script src="page.js"></script>');
    const browser = new Browser();
    try {
      const page = await browser.open(pathToFileURL(path.join(switched, 'page.html')).href);
      assert.deepEqual(await page.evaluate('widths'), [24, 24, 24]);
      assert.deepEqual(page.faults, []);
    } finally {
      await browser.close();
    }
  });

  assert.equal(run(user, [command('elk'), 'check'], { input: run(user, [command('elk'), 'layout'], { input }) }), 'yes\n');
  assert.equal(run(user, [command('elk-lint')], { input }), '');
});
