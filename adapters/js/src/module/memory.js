'use strict';
// An upper limit for the memory of a WebAssembly module.

const { ProgramError } = require('../errors');

const PAGE = 2 ** 16;

const MEMORY_SECTION = 5;

/** The number at a position of a module's bytes, in groups of 7 bits, and the position after it. */
function numberAt(bytes, start) {
  let [value, at] = [0, start];
  do {
    value += (bytes[at] & 0x7f) * 2 ** (7 * (at - start));
    at += 1;
  } while (bytes[at - 1] & 0x80);
  return [value, at];
}

function bytesOf(number) {
  const bytes = [];
  let rest = number;
  do {
    bytes.push((rest % 0x80) + (rest >= 0x80 ? 0x80 : 0));
    rest = Math.floor(rest / 0x80);
  } while (rest > 0);
  return bytes;
}

/** The section of a module that declares its memory: its start, its content and its end. */
function memorySection(bytes) {
  // The sections follow 8 bytes of magic and version.
  for (let start = 8; start < bytes.length; ) {
    const [size, content] = numberAt(bytes, start + 1);
    if (bytes[start] === MEMORY_SECTION) {
      return { start, content, end: content + size };
    }
    start = content + size;
  }
  throw new ProgramError('the module has no memory of its own');
}

/**
 * The module with an upper limit of its memory. If the program needs more, it ends with status 6.
 * @param {Uint8Array} bytes a module
 * @param {number} most in bytes, rounded down to whole pages
 */
function withMemoryLimit(bytes, most) {
  const { start, content, end } = memorySection(bytes);
  // One memory follows: its flags, its least number of pages, and a greatest one if a flag says so.
  const [least] = numberAt(bytes, content + 2);
  const pages = Math.floor(most / PAGE);
  if (!(pages >= least)) {
    throw new RangeError(`a limit of ${most} bytes is below the ${least * PAGE} with which the program starts`);
  }
  const memory = [1, bytes[content + 1] | 1, ...bytesOf(least), ...bytesOf(pages)];
  const section = [MEMORY_SECTION, ...bytesOf(memory.length), ...memory];
  const limited = new Uint8Array(start + section.length + bytes.length - end);
  limited.set(bytes.subarray(0, start));
  limited.set(section, start);
  limited.set(bytes.subarray(end), start + section.length);
  return limited;
}

module.exports = { withMemoryLimit };
