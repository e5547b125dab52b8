'use strict';
// The files for pages, in a real browser.

const assert = require('node:assert/strict');
const { mkdtempSync, readFileSync, rmSync, writeFileSync } = require('node:fs');
const { createServer } = require('node:http');
const { tmpdir } = require('node:os');
const path = require('node:path');
const test = require('node:test');
const { pathToFileURL } = require('node:url');
const { library } = require('../pack/library');
const { Browser, WITH_BROWSER } = require('./helpers/browser');
const { WITH_MODULE } = require('./helpers/module');

const WITH_BOTH = { skip: WITH_BROWSER.skip || WITH_MODULE.skip, timeout: 120_000 };

// The page makes the same level at each call: nodes of which each has an edge to one drawn by chance.
const PAGE = `<!doctype html>
<meta charset="utf-8">
<title>A page</title>
HEAD
<script>
const pair = () => ({
  id: 'r',
  children: ['a', 'b'].map((id) => ({ id, width: 30.5, height: 30 })),
  edges: [{ id: 'é 😀', sources: ['a'], targets: ['b'] }],
});
function level(nodes) {
  let seed = 1;
  const next = () => {
    seed = (seed * 48271) % 2147483647;
    return 'n' + (seed % nodes);
  };
  const children = Array.from({ length: nodes }, (_, at) => ({ id: 'n' + at, width: 30, height: 30 }));
  return { id: 'r', children, edges: children.map((_, at) => ({ id: 'e' + at, sources: [next()], targets: [next()] })) };
}
</script>
`;

const SCRIPT = '<script src="elk.bundled.js"></script>';

const STRICT = "script-src 'self' 'unsafe-inline' 'wasm-unsafe-eval'; worker-src 'self'";

const HEADS = {
  'page.html': SCRIPT,
  'module.html': `<script type="module">import ELK from './elk.bundled.mjs'; window.elk = new ELK();</script>`,
  'url.html': `${SCRIPT}<script>window.elk = new ELK({ workerUrl: 'elk-worker.js' });</script>`,
  'api.html': `<script src="elk-api.js"></script><script>window.elk = new ELK({ workerUrl: 'elk-worker.min.js' });</script>`,
  'factory.html': `<script src="elk-api.js"></script>
<script>window.elk = new ELK({ workerFactory: (url) => new Worker(url), workerUrl: 'elk-worker.js' });</script>`,
  'strict.html': `<meta http-equiv="Content-Security-Policy" content="${STRICT}">
${SCRIPT}<script>window.elk = new ELK({ workerUrl: 'elk-worker.js' });</script>`,
  'blob.html': `<meta http-equiv="Content-Security-Policy" content="${STRICT}">
${SCRIPT}<script>window.elk = new ELK();</script>`,
  'functions.html': `<script type="module">import { toSvg } from './svg.mjs'; import { lint } from './lint.mjs'; Object.assign(window, { toSvg, lint });</script>`,
  'diagram.html': `<script src="elk-diagram.js"></script>`,
  'none.html': `${SCRIPT}<script>window.elk = new ELK({ workerUrl: 'none.js' });</script>`,
};

const TYPES = { html: 'text/html', js: 'text/javascript', mjs: 'text/javascript' };

/** Serves a folder on this machine alone. */
async function served(room) {
  const server = createServer(({ url }, response) => {
    try {
      const text = readFileSync(path.join(room, path.basename(url)));
      response.writeHead(200, { 'content-type': TYPES[url.split('.').at(-1)] }).end(text);
    } catch {
      response.writeHead(404).end();
    }
  });
  await new Promise((resolve) => server.listen(0, '127.0.0.1', resolve));
  return server;
}

let [room, server, browser] = [];

test.before(async () => {
  if (WITH_BOTH.skip) {
    return;
  }
  room = mkdtempSync(path.join(tmpdir(), 'elk-pages-'));
  const pages = Object.entries(HEADS).map(([name, head]) => [name, PAGE.replace('HEAD', () => head)]);
  [...Object.entries(library()), ...pages].forEach(([name, text]) => writeFileSync(path.join(room, name), text));
  server = await served(room);
  browser = new Browser();
});

test.after(async () => {
  await browser?.close();
  server?.closeAllConnections();
  server?.close();
  rmSync(room ?? '', { recursive: true, force: true });
});

/** The page of one script, opened from its file. */
const pageOfFile = () => browser.open(pathToFileURL(path.join(room, 'page.html')).href);

const pageOfServer = (name) => browser.open(`http://127.0.0.1:${server.address().port}/${name}`);

const drawn = (elk) => `(async () => {
  const { width, edges: [{ id, sections }] } = await ${elk}.layout(pair());
  return [width, id, sections.length];
})()`;

const DRAWN = [106, 'é 😀', 1];

test('a page of one script lays out, from a file, and stays free meanwhile', WITH_BOTH, async () => {
  const page = await pageOfFile();
  assert.deepEqual(await page.evaluate(drawn('new ELK()')), DRAWN);
  const { most, all } = await page.evaluate(`(async () => {
    const since = performance.now();
    let [most, last] = [0, since];
    const ticks = setInterval(() => {
      most = Math.max(most, performance.now() - last);
      last = performance.now();
    }, 4);
    await new ELK().layout(level(2000));
    clearInterval(ticks);
    return { most, all: performance.now() - since };
  })()`);
  assert.ok(most < all / 2, `a tick came ${most} ms late in a layout of ${all} ms`);
  assert.deepEqual(page.faults, []);
});

test('a page works for less than 16 ms itself in a layout of 600 labelled nodes', WITH_BOTH, async (t) => {
  const page = await pageOfFile();
  // What other programs take is not counted.
  await page.send('Performance.enable', { timeDomain: 'threadTicks' });
  await page.evaluate(`(async () => {
    window.elk = new ELK();
    window.graph = level(600);
    [...graph.children, ...graph.edges].forEach((it) => { it.labels = [{ text: it.id, width: 30, height: 12 }]; });
  })()`);
  const worked = async () => {
    const { metrics } = await page.send('Performance.getMetrics');
    return metrics.find(({ name }) => name === 'TaskDuration').value * 1000;
  };
  const times = [];
  for (let call = 0; call < 8; call += 1) {
    const before = await worked();
    await page.evaluate('elk.layout(graph).then(() => 0)');
    times.push(Math.round(await worked() - before));
  }
  t.diagnostic(`all work of the page in a layout, so no stop is longer: ${times} ms`);
  assert.ok(Math.min(...times) < 16, `${times}`);
});

test('a page lays out edges that cross the borders of boxes', WITH_BOTH, async () => {
  const page = await pageOfFile();
  const [x, container] = await page.evaluate(`(async () => {
    const { children: [a, b] } = pair();
    const graph = { ...pair(), children: [a, { id: 'box', children: [b] }] };
    const { children: [, { x, children: [within] }], edges: [{ container, sections: [{ endPoint }] }] } = await new ELK().layout(graph);
    return [endPoint.x - x - within.x, container];
  })()`);
  assert.deepEqual([x, container, page.faults], [0, 'r', []]);
});

test('a page draws a graph', WITH_BOTH, async () => {
  const page = await pageOfFile();
  const texts = await page.evaluate(`new ELK().svg(pair()).then((svg) => {
    document.body.innerHTML = svg;
    return [...document.querySelectorAll('svg text')].map(({ textContent }) => textContent);
  })`);
  assert.deepEqual(texts.sort(), ['a', 'b']);
  assert.deepEqual(page.faults, []);
});

test('a layout under way is ended, and the next call starts anew', WITH_BOTH, async () => {
  const page = await pageOfFile();
  const said = await page.evaluate(`(async () => {
    const elk = new ELK();
    await elk.layout(pair());
    const waiting = elk.layout(level(2000)).catch((error) => error instanceof ELK.ProgramError && error.message);
    setTimeout(() => elk.terminateWorker(), 10);
    return [await waiting, (await elk.layout(pair())).width];
  })()`);
  assert.deepEqual(said, ['the worker was ended by terminateWorker()', DRAWN[0]]);
  assert.deepEqual(page.faults, []);
});

test('a page refuses in the words of the adapter', WITH_BOTH, async () => {
  const page = await pageOfFile();
  const said = await page.evaluate(`new ELK().layout({ ...pair(), layoutOptions: { 'elk.direction': 'ASIDE' } })
    .catch((error) => [error instanceof ELK.Refusal, error.rule, error.name])`);
  assert.deepEqual(said, [true, 11, 'OptionValue']);
  await assert.rejects(page.evaluate(`new ELK({ program: 'elk' })`), /a page starts no program/);
});

test('a page takes the class as a module, and a worker from a file, even if no other script may run', WITH_BOTH, async () => {
  for (const name of ['module.html', 'url.html', 'api.html', 'factory.html', 'strict.html']) {
    const page = await pageOfServer(name);
    assert.deepEqual(await page.evaluate(drawn('elk')), DRAWN, name);
    // No page has an icon.
    assert.deepEqual(page.faults.filter((it) => !it.includes('404')), [], name);
  }
});

test('a page says why it has no worker', WITH_BOTH, async () => {
  const page = await pageOfServer('none.html');
  const said = await page.evaluate(`elk.layout(pair()).catch(({ name, message }) => [name, message])`);
  assert.deepEqual(said, ['ProgramError', "the worker ended: its script can't be loaded"]);
  const strict = await pageOfServer('blob.html');
  const [name, message] = await strict.evaluate(`elk.layout(pair()).catch(({ name, message }) => [name, message])`);
  assert.equal(name, 'ProgramError');
  assert.match(message, /allows no workers from blobs, serve lib\/elk-worker\.js, and give its address as workerUrl$/);
});

test('a page judges texts and draws placed graphs by promises', WITH_BOTH, async () => {
  const page = await pageOfServer('functions.html');
  const said = await page.evaluate(`(async () => {
    const svg = await toSvg({ id: 'r', width: 50, height: 50, children: [{ id: 'a', x: 9, y: 9, width: 20, height: 20 }] });
    const [{ severity, rule }] = await lint('{"children":[{"id":"a"},{"id":"a"}]}');
    return [svg.slice(0, 4), severity, rule];
  })()`);
  assert.deepEqual(said, ['<svg', 'fault', 7]);
});

/** A page with the element, and a promise of its next event. */
async function pageOfDiagram() {
  const page = await browser.open(pathToFileURL(path.join(room, 'diagram.html')).href);
  await page.evaluate(`
    window.told = (element, name) => new Promise((resolve) =>
      element.addEventListener(name, ({ detail }) => resolve(detail), { once: true }));
    window.words = (element) => [...element.querySelectorAll('text')].map(({ textContent }) => textContent).sort();
    window.added = (html) => {
      document.body.innerHTML = html;
      return document.body.firstElementChild;
    };
    0`);
  return page;
}

test('an element draws the graph of its attribute, and again what is set', WITH_BOTH, async () => {
  const page = await pageOfDiagram();
  const said = await page.evaluate(`(async () => {
    const it = added(\`<elk-diagram graph='{ "id": "r", "children": [{ "id": "a", "width": 30, "height": 30 }] }'></elk-diagram>\`);
    const first = await told(it, 'elk-placed');
    const picture = it.firstElementChild;
    const seen = [first.width, it.placed === first, words(it), picture.getAttribute('role'), picture.getAttribute('aria-label')];
    document.body.style.width = '20px';
    seen.push(picture.getBoundingClientRect().width <= 20);
    document.body.style.width = '';
    it.graph = pair();
    it.layoutOptions = { 'elk.direction': 'DOWN' };
    it.arrows = false;
    await told(it, 'elk-placed');
    const heads = it.querySelectorAll('.edge path[stroke=none]').length;
    seen.push(it.placed.height > it.placed.width, words(it), heads, it.children.length);
    it.graph = undefined;
    it.removeAttribute('graph');
    await new Promise((resolve) => setTimeout(resolve, 50));
    return [...seen, it.children.length, it.placed === undefined];
  })()`);
  assert.deepEqual(said, [54, true, ['a'], 'img', 'a diagram with 1 node and 0 edges', true, true, ['a', 'b'], 0, 1, 0, true]);
  assert.deepEqual(page.faults, []);
});

test('an element draws the last of many graphs, and one that was set before it stood in the page', WITH_BOTH, async () => {
  const page = await pageOfDiagram();
  const said = await page.evaluate(`(async () => {
    const it = document.createElement('elk-diagram');
    it.graph = { id: 'before', children: [{ id: 'early', width: 60, height: 30 }] };
    document.body.append(it);
    await told(it, 'elk-placed');
    const seen = [words(it)];
    let count = 0;
    it.addEventListener('elk-placed', () => { count += 1; });
    it.graph = level(300);
    await Promise.resolve();
    it.graph = { id: 'r', children: [{ id: 'middle', width: 60, height: 30 }] };
    it.graph = { id: 'r', children: [{ id: 'late', width: 60, height: 30 }] };
    await told(it, 'elk-placed');
    await ElkDiagram.elk.layout(pair());
    return [...seen, words(it), count];
  })()`);
  assert.deepEqual(said, [['early'], ['late'], 1]);
});

test('an element says why it draws nothing, and hostile texts stay texts', WITH_BOTH, async () => {
  const page = await pageOfDiagram();
  const said = await page.evaluate(`(async () => {
    const it = added('<elk-diagram graph="{"></elk-diagram>');
    const seen = [(await told(it, 'elk-error')).name, it.querySelector('[role=alert]').textContent.slice(0, 47)];
    it.graph = { id: 'r', children: [{ id: '<img src=x onerror=alert(1)>', width: -1 }] };
    seen.push((await told(it, 'elk-error')).rule, it.querySelectorAll('img').length);
    const id = '"><script>window.hit = 1</script><img src=x onerror="window.hit = 1">';
    it.graph = { id: 'r', children: [{ id, width: 400, height: 30, style: { fill: id, class: id } }] };
    await told(it, 'elk-placed');
    return [...seen, words(it)[0] === id, it.querySelectorAll('img, script').length, window.hit === undefined];
  })()`);
  assert.deepEqual(said, ['SyntaxError', 'the attribute graph of elk-diagram is not JSON:', 4, 0, true, 0, true]);
});

test('a picture follows the setting of the reader, and the style of a page goes before it', WITH_BOTH, async () => {
  const page = await pageOfDiagram();
  const colours = `(async () => {
    const style = { class: 'alarm' };
    const it = added('<style>.alarm { fill: rgb(1, 2, 3); }</style><div></div>').nextElementSibling;
    const made = document.createElement('elk-diagram');
    made.graph = { id: 'r', children: ['a', 'b', 'c'].map((id, at) => ({ id, width: 30, height: 30, style: [{}, { fill: '#ffffff' }, style][at] })) };
    it.append(made);
    await told(made, 'elk-placed');
    const fill = (name) => getComputedStyle(made.querySelector(name)).fill;
    return ['a', 'b', 'c'].map((id) => fill('[data-id=' + id + ']'));
  })()`;
  const own = ['rgb(255, 255, 255)', 'rgb(1, 2, 3)'];
  assert.deepEqual(await page.evaluate(colours), ['rgb(255, 255, 255)', ...own]);
  await page.prefer('dark');
  assert.deepEqual(await page.evaluate(colours), ['rgb(22, 32, 43)', ...own]);
});
