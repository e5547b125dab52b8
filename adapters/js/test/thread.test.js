'use strict';
// The module in a thread of Node.

const assert = require('node:assert/strict');
const { spawnSync } = require('node:child_process');
const path = require('node:path');
const test = require('node:test');
const ELK = require('../src/elk');
const { PUPPET_MODULE, WITH_MODULE } = require('./helpers/module');

// A native program would answer instead of the module.
delete process.env.ELK_DRAW_PROGRAM;

// What is said of a reply that is the request.
const ECHO = `the program's reply is no answer: {"graph":{"id":"fine"},"opt`;

const leaf = (id = 'a') => ({ id, width: 30, height: 30 });

/** A level of random edges, of the same nodes and edges at each call. */
function level(nodes) {
  let seed = 1;
  const next = (below) => {
    seed = (seed * 48271) % 2147483647;
    return seed % below;
  };
  const children = Array.from({ length: nodes }, (_, at) => leaf(`n${at}`));
  const edges = children.map((_, at) => ({ id: `e${at}`, sources: [`n${next(nodes)}`], targets: [`n${next(nodes)}`] }));
  return { id: 'r', children, edges };
}

/** Runs a script of its own in node, which must end by itself. */
function script(source, environment = {}) {
  const code = `const ELK = require(${JSON.stringify(path.join(__dirname, '..', 'src', 'elk.js'))}); ${source}`;
  const env = { ...process.env, ...environment };
  return spawnSync(process.execPath, ['-e', code], { encoding: 'utf8', timeout: 120_000, env });
}

test('a layout under way is ended, and the next call starts anew', WITH_MODULE, async () => {
  const elk = new ELK();
  await elk.layout(leaf());
  const waiting = elk.layout(level(2000));
  const queued = elk.layout(leaf());
  setTimeout(() => elk.terminateWorker(), 20);
  await assert.rejects(waiting, { name: 'ProgramError', message: /terminateWorker/ });
  await assert.rejects(queued, { name: 'ProgramError', message: /terminateWorker/ });
  assert.equal((await elk.layout({ id: 'r' })).width, 24);
  elk.terminateWorker();
});

test('node stays free while a large level is laid out', WITH_MODULE, async () => {
  const elk = new ELK();
  const since = performance.now();
  let [most, last] = [0, since];
  const ticks = setInterval(() => {
    most = Math.max(most, performance.now() - last);
    last = performance.now();
  }, 2);
  await elk.layout(level(2000));
  clearInterval(ticks);
  elk.terminateWorker();
  const all = performance.now() - since;
  assert.ok(most < all / 2, `a tick came ${most} ms late in a layout of ${all} ms`);
});

test('many objects share one worker', WITH_MODULE, async () => {
  const all = Array.from({ length: 200 }, (_, at) => new ELK().layout(leaf(at)));
  assert.deepEqual((await Promise.all(all)).map(({ id }) => id), [...all.keys()]);
  new ELK().terminateWorker();
});

test('an idle worker lets node end, a waiting call does not', WITH_MODULE, () => {
  const ended = script(`new ELK().layout({ id: 'r' }).then(({ width }) => console.log(width));`);
  assert.deepEqual([ended.status, ended.stdout, ended.stderr], [0, '24\n', '']);
});

test('a trap fails its call, and the next one is answered', () => {
  // The puppet returns what it reads, which is no reply, and traps at a piece of 16 bytes that begins with T.
  const ended = script(
    `const elk = new ELK();
     elk.layout({ id: 'T' }).catch(({ name, message }) => console.log(name, message));
     elk.layout({ id: 'fine' }).catch(({ message }) => console.log(message.slice(0, 61)));`,
    { ELK_MODULE: PUPPET_MODULE },
  );
  const said = `ProgramError the program was ended by a trap: unreachable\n${ECHO}\n`;
  assert.deepEqual([ended.status, ended.stdout, ended.stderr], [0, said, '']);
});

test('want of memory fails its call, and the next one is answered', () => {
  // The puppet takes a megabyte at a piece that begins with G.
  const ended = script(
    `const elk = new ELK();
     elk.layout({ id: 'G'.padEnd(16).repeat(9) }).catch(({ status, message }) => console.log(status, message));
     elk.layout({ id: 'fine' }).catch(({ message }) => console.log(message.slice(0, 61)));`,
    { ELK_MODULE: PUPPET_MODULE, ELK_MEMORY: String(2 ** 23) },
  );
  assert.deepEqual([ended.status, ended.stdout, ended.stderr], [0, `6 the program ran out of memory\n${ECHO}\n`, '']);
});

test('a module that is none fails the calls', () => {
  const source = `new ELK().layout({ id: 'r' }).catch(({ name, message }) => console.log(name, message));`;
  const ended = script(source, { ELK_MODULE: __filename });
  assert.equal(ended.status, 0);
  assert.match(ended.stdout, /^ProgramError .*WebAssembly/);
});
