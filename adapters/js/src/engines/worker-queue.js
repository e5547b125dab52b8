'use strict';
// One worker and the calls of all objects that share it. It gets one request at a time, and the others wait here.

const { ProgramError } = require('../errors');

/**
 * Listens to a worker of pages, or to a thread of Node.
 * @param {object} worker
 * @param {{ onReply: (data: object) => void, onEnd: (why: string) => void }} listener
 * @param {string} hint what to do if the script of a worker can't be loaded
 */
function listen(worker, { onReply, onEnd }, hint) {
  if (typeof worker?.postMessage !== 'function') {
    throw new TypeError("Created worker does not provide the required 'postMessage' function.");
  }
  if (typeof worker.on === 'function') {
    worker.on('message', onReply);
    worker.on('error', ({ message }) => onEnd(`: ${message}`));
    worker.on('exit', () => onEnd(''));
  } else {
    worker.onmessage = ({ data }) => onReply(data);
    worker.onerror = ({ message }) => onEnd(`: ${message ?? `its script can't be loaded${hint}`}`);
  }
}

class WorkerQueue {
  #make;
  #hint;
  #worker;
  // The first of these is at the worker.
  #calls = [];

  /**
   * @param {() => object} make makes a worker, at the first call and again after its end
   * @param {string} [hint] what to do if it can't be made
   */
  constructor(make, hint = '') {
    this.#make = make;
    this.#hint = hint;
  }

  /** Makes the worker before the first call, and throws if that fails. */
  start() {
    this.#worker ??= this.#made();
    return this;
  }

  /** Makes the worker before the first call. If that fails, the call fails. */
  prepare() {
    try {
      return this.start();
    } catch {
      return this;
    }
  }

  /**
   * The engine of one object of those that share the worker. Its `stop` leaves the calls of the others alone.
   * @returns {{ ask: (text: string) => Promise<{ reply: string, seconds: number }>, stop: () => void }}
   */
  client() {
    const client = { ask: (text) => this.#ask(text, client), stop: () => this.#stop(client) };
    return client;
  }

  #ask(text, client) {
    return new Promise((resolve, reject) => {
      this.#calls.push({ text, client, resolve, reject });
      if (this.#calls.length === 1) {
        this.#sendFirst();
      }
    });
  }

  #stop(client) {
    const mine = this.#calls.filter((call) => call.client === client);
    const isForAnother = this.#calls.length > 0 && this.#calls[0] !== mine[0];
    this.#calls = this.#calls.filter((call) => call.client !== client);
    if (!isForAnother) {
      this.#worker?.terminate?.();
      this.#worker = undefined;
      this.#sendFirst();
    }
    const error = new ProgramError('the worker was ended by terminateWorker()');
    mine.forEach(({ reject }) => reject(error));
  }

  #made() {
    const worker = this.#make();
    // What a worker says after its end is for no call of the next one.
    const ifCurrent = (tell) => (it) => worker === this.#worker && tell(it);
    listen(worker, {
      onReply: ifCurrent((data) => this.#finishFirst(data)),
      onEnd: ifCurrent((why) => this.#failAll(new ProgramError(`the worker ended${why}`))),
    }, this.#hint);
    worker.unref?.();
    return worker;
  }

  #sendFirst() {
    if (this.#calls.length === 0) {
      return;
    }
    try {
      this.start();
      // Node waits for a busy worker.
      this.#worker.ref?.();
      this.#worker.postMessage({ text: this.#calls[0].text });
    } catch (cause) {
      this.#failAll(new ProgramError(`the worker can't be started: ${cause.message}${this.#hint}`, { cause }));
    }
  }

  #finishFirst({ error, ...answer }) {
    if (this.#calls.length === 0) {
      this.#failAll(new ProgramError('the worker said something unasked'));
      return;
    }
    const { resolve, reject } = this.#calls.shift();
    this.#worker.unref?.();
    this.#sendFirst();
    if (error) {
      reject(new ProgramError(error.message, error));
    } else {
      resolve(answer);
    }
  }

  #failAll(error) {
    this.#worker?.terminate?.();
    this.#worker = undefined;
    for (const { reject } of this.#calls.splice(0)) {
      reject(error);
    }
  }
}

module.exports = { WorkerQueue };
