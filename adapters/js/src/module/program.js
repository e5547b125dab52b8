'use strict';
// The program as a WebAssembly module, in Node and in pages: this passes arguments and input in, and output on.

const { ProgramError } = require('../errors');

const NAME = 'elk-draw';

// An instance never gives memory back. One that has grown beyond this is dropped after its call.
const MOST_KEPT = 2 ** 28;

const encoder = new TextEncoder();

/** The program. One instance of its module serves many calls, because the program frees what it takes. */
class Program {
  #module;
  #instance;
  #call;

  /** @param {WebAssembly.Module} module */
  constructor(module) {
    this.#module = module;
  }

  /**
   * Runs the program once.
   * @param {string[]} words its arguments
   * @param {object} streams each call returns the number of bytes, or a negative number if it failed
   * @param {(room: Uint8Array) => number} streams.read fills the beginning of the room with input; 0 is the end
   * @param {(bytes: Uint8Array, stream: number) => number} streams.write takes output of stream 1 or 2; the bytes are
   *   valid only during the call
   * @returns {number} the exit status
   */
  run(words, { read, write }) {
    const instance = this.#instance ?? this.#started();
    // It is kept again only when the call has returned, because a trap leaves its memory in an unknown state.
    this.#instance = undefined;
    const { memory } = instance.exports;
    this.#call = { memory, words: [NAME, ...words].map((word) => encoder.encode(word)), read, write };
    const status = runMain(instance);
    if (memory.buffer.byteLength <= MOST_KEPT) {
      this.#instance = instance;
    }
    return status;
  }

  // Pointers, lengths and answers are integers of 64 bits.
  #started() {
    const bytesAt = (pointer, length) => new Uint8Array(this.#call.memory.buffer, Number(pointer), Number(length));
    return new WebAssembly.Instance(this.#module, {
      host: {
        read: (_, pointer, length) => BigInt(this.#call.read(bytesAt(pointer, length))),
        write: (stream, pointer, length) => BigInt(this.#call.write(bytesAt(pointer, length), stream)),
        arg: (index, pointer, length) => argument(this.#call.words[Number(index)], bytesAt(pointer, length)),
      },
    });
  }
}

function argument(word, room) {
  if (!word) {
    return -1n;
  }
  room.set(word.subarray(0, room.length));
  return BigInt(word.length);
}

function runMain(instance) {
  try {
    return instance.exports.main(0, 0n);
  } catch (cause) {
    throw new ProgramError(`the program was ended by a trap: ${cause.message}`, { cause });
  }
}

module.exports = { Program };
