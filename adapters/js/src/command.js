'use strict';
// The program as a command over its module: the same arguments, streams and exit statuses on every system that has Node.

const { readSync, writeSync } = require('node:fs');
const { Program } = require('./module');
const { moduleBytes } = require('./module/file');

// The status of the launcher if it has no program to start.
const NO_PROGRAM = 70;

const REST = new Int32Array(new SharedArrayBuffer(4));

/** Asks a stream again as long as it has nothing to give or no room. */
function waited(call) {
  for (;;) {
    try {
      return call();
    } catch (error) {
      if (error.code !== 'EAGAIN') {
        return failed(error);
      }
      Atomics.wait(REST, 0, 0, 1);
    }
  }
}

// Windows reports the end of a pipe as an error.
const failed = ({ code }) => (code === 'EOF' ? 0 : -1);

const streams = {
  read: (room) => waited(() => readSync(0, room)),
  write: (bytes, stream) => waited(() => writeSync(stream, bytes)),
};

/**
 * Runs the program with the streams of this process, and sets the exit status.
 * @param {string} name of the command
 * @param {string[]} words the arguments of the program
 */
function runCommand(name, words) {
  try {
    process.exitCode = new Program(new WebAssembly.Module(moduleBytes())).run(words, streams);
  } catch ({ message }) {
    process.stderr.write(`${name}: ${message}\n`);
    process.exitCode = NO_PROGRAM;
  }
}

module.exports = { NO_PROGRAM, runCommand };
