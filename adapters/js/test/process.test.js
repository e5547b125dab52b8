'use strict';

const assert = require('node:assert/strict');
const { spawnSync } = require('node:child_process');
const path = require('node:path');
const test = require('node:test');
const { Lines, LineCutter } = require('../src/engines/process');
const { ProgramError } = require('../src/errors');

const PUPPET = path.join(__dirname, 'helpers', 'puppet');
const ELK_MODULE = path.join(__dirname, '..', 'src', 'elk.js');

async function withLines(t, use, most) {
  const lines = new Lines(PUPPET, most);
  t.after(() => lines.stop());
  return use(async (line) => (await lines.ask(line)).reply, lines);
}

const rest = (milliseconds) => new Promise((resolve) => setTimeout(resolve, milliseconds));

/** Waits until a process is gone. */
async function gone(pid) {
  for (;;) {
    try {
      process.kill(pid, 0);
    } catch {
      return;
    }
    await rest(20);
  }
}

const failsBy = (status, words) => (error) => {
  assert.ok(error instanceof ProgramError, String(error));
  assert.match(error.message, words);
  assert.equal(error.status, status);
  return true;
};

test('a line is cut whole out of any pieces', () => {
  const bytes = Buffer.from('é\n\nlast 😀\nrest');
  for (let size = 1; size <= bytes.length; size += 1) {
    const cutter = new LineCutter();
    const lines = [];
    for (let at = 0; at < bytes.length; at += size) {
      lines.push(...cutter.take(bytes.subarray(at, at + size)));
    }
    assert.deepEqual(lines, ['é', '', 'last 😀']);
  }
});

test('a hundred calls at once are answered in order by one process', (t) =>
  withLines(t, async (ask) => {
    const order = [];
    const calls = Array.from({ length: 100 }, async (_, at) => {
      const reply = await ask(at % 10 === 0 ? 'pid' : `say ${at}`);
      order.push(at);
      return reply;
    });
    const replies = await Promise.all(calls);
    assert.deepEqual(order, [...replies.keys()]);
    assert.equal(new Set(replies.filter((_, at) => at % 10 === 0)).size, 1);
    assert.equal(replies[57], '57');
  }));

test('letters that are torn between two pieces of a reply are whole', (t) =>
  withLines(t, async (ask) => assert.equal(await ask('pieces é 😀 é'), 'é 😀 é')));

test('very long lines pass both ways', (t) =>
  withLines(t, async (ask) => {
    const line = `say ${'ü'.repeat(6_000_000)}`;
    assert.equal((await ask(line)).length, 6_000_000);
    assert.equal((await ask('long 5000000')).length, 5_000_000);
  }));

test('a killed program fails all waiting calls and is started again at the next', (t) =>
  withLines(t, async (ask) => {
    const before = await ask('pid');
    const ended = await Promise.allSettled([ask('kill'), ask('say 1'), ask('say 2')]);
    for (const { reason } of ended) {
      assert.ok(reason instanceof ProgramError);
      assert.equal(reason.signal, 'SIGKILL');
      assert.match(reason.message, /was ended by SIGKILL/);
    }
    assert.notEqual(await ask('pid'), before);
  }));

test('the error of a program that ends has its status and its last words', (t) =>
  withLines(t, async (ask) => {
    await assert.rejects(ask('exit 6'), failsBy(6, /ended with the status 6: the notes of the end/));
    await assert.rejects(ask('exit 5'), failsBy(5, /does not know --lines: name the program elk-draw/));
    assert.equal(await ask('say on'), 'on');
  }));

test('a program that ends between two calls is started again', (t) =>
  withLines(t, async (ask) => {
    const pid = Number(await ask('pid'));
    process.kill(pid, 'SIGKILL');
    await gone(pid);
    await rest(100);
    assert.equal(await ask('say on'), 'on');
  }));

test('a program that is not there, or is none, fails the calls', async () => {
  for (const program of ['/no/such/program', __dirname, '']) {
    const lines = new Lines(program);
    const ended = await Promise.allSettled([lines.ask('say 1'), lines.ask('say 2')]);
    for (const { reason } of ended) {
      assert.ok(reason instanceof ProgramError, String(reason));
      assert.match(reason.message, /can't be started/);
    }
  }
});

test('the launcher is heard when it builds the program, and nothing else is', (t) =>
  withLines(t, async (ask) => {
    const warnings = [];
    const hear = ({ message }) => warnings.push(message);
    process.on('warning', hear);
    t.after(() => process.off('warning', hear));
    assert.equal(await ask('note elk: building the program'), 'noted');
    assert.equal(await ask('note anything else'), 'noted');
    await rest(0);
    assert.deepEqual(warnings, ['elk: building the program']);
  }));

test('an ended process fails what waits and serves no later call', (t) =>
  withLines(t, async (ask, lines) => {
    const waiting = ask('never');
    const queued = ask('say 1');
    await rest(50);
    lines.stop();
    await assert.rejects(waiting, failsBy(undefined, /terminateWorker/));
    await assert.rejects(queued, ProgramError);
    assert.equal(await ask('say on'), 'on');
    lines.stop();
    lines.stop();
  }));

test('a reply that nobody asked for goes to no call', (t) =>
  withLines(t, async (ask) => {
    assert.equal(await ask('twice one'), 'one');
    await rest(100);
    assert.equal(await ask('say two'), 'two');
  }));

test('a process that has read its share is followed by another', (t) =>
  withLines(
    t,
    async (ask) => {
      const pids = [];
      for (let call = 0; call < 6; call += 1) {
        pids.push(await ask('pid'));
      }
      assert.deepEqual(
        pids.map((pid) => pids.indexOf(pid)),
        [0, 0, 2, 2, 4, 4],
      );
    },
    8,
  ));

/** Runs a script of its own in node, which must end by itself. */
function script(source) {
  const code = `const ELK = require(${JSON.stringify(ELK_MODULE)}); const elk = new ELK(); ${source}`;
  const environment = { ...process.env, ELK_DRAW_PROGRAM: PUPPET };
  return spawnSync(process.execPath, ['-e', code], { encoding: 'utf8', timeout: 120_000, env: environment });
}

test('an idle process lets node end, a waiting call does not', () => {
  const idle = script(`elk.layout({ id: 'one' }).then(({ id }) => console.log(id));`);
  assert.deepEqual([idle.status, idle.signal, idle.stdout], [0, null, 'one\n']);
  const waiting = script(`elk.layout({ id: 'wait {"placed":{"width":1},"warnings":[]}' }).then(({ width }) => console.log(width));`);
  assert.deepEqual([waiting.status, waiting.signal, waiting.stdout], [0, null, '1\n']);
});

test('a process ends with its parent', { timeout: 60_000 }, async () => {
  const ended = script(`
    elk.layout({ id: 'pid' }).catch(({ message }) => {
      console.log(/is no answer: (\\d+)/.exec(message)[1]);
      elk.layout({ id: 'never' });
      setTimeout(() => process.exit(3), 100);
    });`);
  assert.equal(ended.status, 3, ended.stderr);
  await gone(Number(ended.stdout));
});
