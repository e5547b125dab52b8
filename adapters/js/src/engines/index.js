'use strict';
// What answers requests. Each engine replies to `ask(line)` with a promise of `{ reply, seconds }`, and `stop()` ends it.

const { defaultEngine, programEngine, workerAt } = require('./host');
const { WorkerQueue } = require('./worker-queue');

/**
 * @param {object} given
 * @param {string} [given.program] the path of the program `elk-draw`
 * @param {string | URL} [given.workerUrl] the address of the worker's script
 * @param {(url?: string | URL) => object} [given.workerFactory] makes a worker
 */
function engineOf({ program, workerUrl, workerFactory }) {
  if (program !== undefined) {
    return programEngine(program);
  }
  if (workerFactory || workerUrl) {
    const make = workerFactory ?? workerAt;
    // Made at once, as in elkjs, so that a factory that returns no worker fails here.
    return new WorkerQueue(() => make(workerUrl)).start().client();
  }
  return defaultEngine();
}

module.exports = { engineOf };
