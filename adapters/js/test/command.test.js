'use strict';
// The command `elk` over the module, where streams are as pipes and other programs make them. tools/runs has the rest.

const assert = require('node:assert/strict');
const { spawn, spawnSync } = require('node:child_process');
const { once } = require('node:events');
const { closeSync, constants, mkdtempSync, openSync, rmSync, writeSync } = require('node:fs');
const { tmpdir } = require('node:os');
const path = require('node:path');
const { createInterface } = require('node:readline');
const test = require('node:test');
const { WITH_MODULE } = require('./helpers/module');

const COMMAND = path.join(__dirname, '..', 'bin', 'elk');

const WIDTH = /"width":24,/;

test('a partner that waits for each reply gets it before it sends the next line', WITH_MODULE, async (t) => {
  const child = spawn(COMMAND, ['batch'], { stdio: ['pipe', 'pipe', 'inherit'] });
  t.after(() => child.kill());
  const lines = createInterface({ input: child.stdout })[Symbol.asyncIterator]();
  for (const [line, reply] of [['{"id":"r"}', WIDTH], ['', /^refused 1 NotJson -$/], ['{"id":"é 😀"}', /"id":"é 😀"/]]) {
    child.stdin.write(`${line}\n`);
    assert.match((await lines.next()).value, reply);
  }
  child.stdin.end();
  assert.deepEqual(await once(child, 'close'), [0, null]);
});

test('input that is not there yet is waited for', WITH_MODULE, async (t) => {
  const room = mkdtempSync(path.join(tmpdir(), 'elk-'));
  t.after(() => rmSync(room, { recursive: true }));
  const pipe = path.join(room, 'pipe');
  spawnSync('mkfifo', [pipe]);
  // A read from this end says that there is nothing yet, instead of waiting.
  const end = openSync(pipe, constants.O_RDWR | constants.O_NONBLOCK);
  const child = spawn(COMMAND, ['batch'], { stdio: [end, 'pipe', 'inherit'] });
  t.after(() => child.kill());
  const lines = createInterface({ input: child.stdout })[Symbol.asyncIterator]();
  await new Promise((resolve) => setTimeout(resolve, 300));
  writeSync(end, '{"id":"r"}\n');
  assert.match((await lines.next()).value, WIDTH);
  closeSync(end);
});

test('a reader that leaves, and a full device, end the command by their status', WITH_MODULE, () => {
  const shell = (words) => spawnSync('sh', ['-c', words, COMMAND], { encoding: 'utf8' }).stderr;
  assert.equal(shell(`printf '{"id":"r"}' | { sleep 0.3; "$0" layout; echo $? >&2; } | true`), 'write fault\n4\n');
  assert.equal(shell(`printf '{"id":"r"}' | "$0" layout > /dev/full; echo $? >&2`), 'write fault\n4\n');
});
