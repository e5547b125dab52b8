'use strict';
// The engines of pages. The script of the worker and the module are texts in the bundle, which are empty in lib/elk-api.js.

const moduleText = require('module-text');
const workerScript = require('worker-script');
const { WorkerQueue } = require('../engines/worker-queue');
const { InPlace } = require('./in-place');
const { unpacked, withModule } = require('./module-file');

const HINT =
  '; if the Content-Security-Policy of the page allows no workers from blobs, serve lib/elk-worker.js, and give its address as workerUrl';

let url;

// Test environments without a browser have no workers. There layouts run in place.
function workerOfPage() {
  if (typeof Worker !== 'function' || typeof URL.createObjectURL !== 'function') {
    return new InPlace(() => unpacked(moduleText));
  }
  // One for all workers of the page.
  url ??= URL.createObjectURL(new Blob(withModule(workerScript, moduleText), { type: 'text/javascript' }));
  return new Worker(url);
}

// All objects without a worker of their own share this one, because making one takes time and memory. It is made with the
// first object, so it is ready for the first graph.
const shared = new WorkerQueue(workerOfPage, HINT);

function defaultEngine() {
  if (!moduleText) {
    throw new Error("Cannot construct an ELK without both 'workerUrl' and 'workerFactory'.");
  }
  return shared.prepare().client();
}

const workerAt = (url) => new Worker(url);

function programEngine() {
  throw new TypeError('a page starts no program: leave `program` out, and the module answers');
}

module.exports = { defaultEngine, programEngine, workerAt };
