'use strict';
// The engines of Node: the native program, and threads with the module. Bundles for pages have page/host.js instead.

const path = require('node:path');
const { fileURLToPath } = require('node:url');
const { Worker } = require('node:worker_threads');
const { Lines } = require('./process');
const { WorkerQueue } = require('./worker-queue');

const threadOf = (script) => new Worker(path.join(__dirname, 'thread.js'), { workerData: script });

const programEngine = (program) => new Lines(program);

/** A thread with a script in a file. */
const workerAt = (url) => threadOf(/^file:/.test(url) ? fileURLToPath(url) : path.resolve(String(url)));

// All objects without a worker of their own share this one, because making one takes time and memory. It is made with the
// first object, so it is ready for the first graph.
const shared = new WorkerQueue(() => threadOf(path.join(__dirname, 'worker.js')));

function defaultEngine() {
  const program = process.env.ELK_DRAW_PROGRAM;
  return program ? programEngine(program) : shared.prepare().client();
}

module.exports = { defaultEngine, programEngine, workerAt };
