'use strict';
// A browser without a window: its process, its folder, and the calls that wait for its answers.

const { spawn } = require('node:child_process');
const { accessSync, constants, mkdtempSync, rmSync } = require('node:fs');
const { tmpdir } = require('node:os');
const path = require('node:path');

const SECONDS = 480;

function isThere(file) {
  try {
    accessSync(file, constants.X_OK);
    return true;
  } catch {
    return false;
  }
}

/** The file of the first of these programs that the path has. */
function programOf(names) {
  const folders = (process.env.PATH ?? '').split(path.delimiter);
  return names.flatMap((name) => folders.map((folder) => path.join(folder, name))).find(isThere);
}

/** What browsers of all kinds have. Their messages differ. */
class Driven {
  #calls = new Map();
  #next = 1;
  #watch;

  child;
  home = mkdtempSync(path.join(tmpdir(), 'elk-browser-'));

  /** Starts the process, which ends after some minutes in any case. */
  start(file, words, given) {
    this.child = spawn(file, words, given);
    this.child.on('error', (error) => this.fail(error));
    this.child.on('exit', () => this.fail(new Error('the browser has ended')));
    this.#watch = setTimeout(() => this.child.kill('SIGKILL'), SECONDS * 1000);
  }

  get hasEnded() {
    return this.child.exitCode !== null || this.child.signalCode !== null;
  }

  /** A promise of the answer to a call, which is written with a number of its own. */
  call(write) {
    return new Promise((resolve, reject) => {
      const id = this.#next;
      this.#next += 1;
      this.#calls.set(id, { resolve, reject });
      write(id);
    });
  }

  answer(id, error, result) {
    const { resolve, reject } = this.#calls.get(id);
    this.#calls.delete(id);
    if (error) {
      reject(new Error(error.message));
    } else {
      resolve(result);
    }
  }

  fail(error) {
    this.#calls.forEach(({ reject }) => reject(error));
    this.#calls.clear();
  }

  /** Waits for the end of the process, once a call has asked for it, and removes the folder. */
  async end(asked) {
    const ended = new Promise((resolve) => {
      this.child.once('exit', resolve);
    });
    asked.catch(() => {});
    await (this.hasEnded ? undefined : ended);
    clearTimeout(this.#watch);
    rmSync(this.home, { recursive: true, force: true, maxRetries: 5 });
  }
}

module.exports = { Driven, programOf };
