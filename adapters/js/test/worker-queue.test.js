'use strict';

const assert = require('node:assert/strict');
const test = require('node:test');
const { ProgramError } = require('../src/errors');
const { WorkerQueue } = require('../src/engines/worker-queue');

/** A worker of pages whose replies the tests give. */
class Puppet {
  asked = [];
  isEnded = false;

  postMessage({ text }) {
    this.asked.push(text);
  }

  reply(reply) {
    this.onmessage({ data: { reply, seconds: 1 } });
  }

  terminate() {
    this.isEnded = true;
  }
}

function queueOfPuppets() {
  const made = [];
  const queue = new WorkerQueue(() => {
    made.push(new Puppet());
    return made.at(-1);
  });
  return { queue, made };
}

const endedBy = (words) => (error) => error instanceof ProgramError && words.test(error.message);

test('a worker is made at the first call, and gets one document at a time', async () => {
  const { queue, made } = queueOfPuppets();
  const { ask } = queue.client();
  assert.equal(made.length, 0);
  const calls = [ask('one'), ask('two')];
  assert.deepEqual(made[0].asked, ['one']);
  made[0].reply('ONE');
  assert.deepEqual(made[0].asked, ['one', 'two']);
  made[0].reply('TWO');
  assert.deepEqual(await Promise.all(calls), ['ONE', 'TWO'].map((reply) => ({ reply, seconds: 1 })));
  assert.equal(made.length, 1);
});

test('an error of one document fails its call alone', async () => {
  const { queue, made } = queueOfPuppets();
  const { ask } = queue.client();
  const [bad, good] = [ask('bad'), ask('good')];
  made[0].onmessage({ data: { error: { message: 'the program ran out of memory', status: 6 } } });
  await assert.rejects(bad, { name: 'ProgramError', message: 'the program ran out of memory', status: 6 });
  made[0].reply('GOOD');
  assert.equal((await good).reply, 'GOOD');
});

test('an end fails the calls of one who shares the worker, and no others', async () => {
  const { queue, made } = queueOfPuppets();
  const [one, other] = [queue.client(), queue.client()];
  // The worker is busy for the other one: it goes on.
  const kept = other.ask('kept');
  const dropped = one.ask('dropped');
  one.stop();
  await assert.rejects(dropped, endedBy(/terminateWorker/));
  assert.equal(made[0].isEnded, false);
  made[0].reply('KEPT');
  assert.equal((await kept).reply, 'KEPT');
  // The worker is busy for the one who ends it: another one takes what the other asked.
  const [busy, waiting] = [one.ask('busy'), other.ask('waiting')];
  one.stop();
  await assert.rejects(busy, endedBy(/terminateWorker/));
  assert.equal(made[0].isEnded, true);
  made[0].reply('LATE');
  assert.deepEqual(made[1].asked, ['waiting']);
  made[1].reply('WAITING');
  assert.equal((await waiting).reply, 'WAITING');
});

test('an idle worker is ended, and the next call makes another', async () => {
  const { queue, made } = queueOfPuppets();
  const { ask, stop } = queue.client();
  stop();
  assert.equal(made.length, 0);
  const first = ask('first');
  made[0].reply('FIRST');
  await first;
  stop();
  stop();
  assert.equal(made[0].isEnded, true);
  const second = ask('second');
  made[1].reply('SECOND');
  assert.equal((await second).reply, 'SECOND');
});

test('a worker that fails fails what waits, and another is made at the next call', async () => {
  const { queue, made } = queueOfPuppets();
  const { ask } = queue.client();
  const calls = [ask('one'), ask('two')];
  made[0].onerror({});
  for (const call of calls) {
    await assert.rejects(call, endedBy(/^the worker ended: its script can't be loaded$/));
  }
  const next = ask('three');
  made[1].reply('THREE');
  assert.equal((await next).reply, 'THREE');
});

test('a worker that speaks unasked is followed by another', async () => {
  const { queue, made } = queueOfPuppets();
  queue.prepare();
  made[0].reply('UNASKED');
  assert.equal(made[0].isEnded, true);
  const call = queue.client().ask('one');
  made[1].reply('ONE');
  assert.equal((await call).reply, 'ONE');
});

test('a worker is made before the first call where that is asked for', async () => {
  const { queue, made } = queueOfPuppets();
  const { ask } = queue.prepare().client();
  assert.equal(made.length, 1);
  const call = ask('one');
  made[0].reply('ONE');
  assert.equal((await call).reply, 'ONE');
  assert.equal(made.length, 1);
});

test('what is no worker is refused', async () => {
  const queue = new WorkerQueue(() => ({}));
  assert.throws(() => queue.start(), /does not provide the required 'postMessage' function/);
  queue.prepare();
  await assert.rejects(queue.client().ask('one'), endedBy(/^the worker can't be started: .*postMessage/));
});
