'use strict';
// Runs of the program whose streams are texts.

const { ProgramError } = require('../errors');

const OUT_OF_MEMORY = 6;

const encoder = new TextEncoder();

/** Reads the text as a stream of input. */
function reader(text) {
  const bytes = encoder.encode(text);
  let at = 0;
  return (room) => {
    const piece = bytes.subarray(at, at + room.length);
    room.set(piece);
    at += piece.length;
    return piece.length;
  };
}

/** Collects what is written, as a text for each stream. */
class Written {
  #decoders = [undefined, new TextDecoder(), new TextDecoder()];
  #texts = ['', '', ''];

  take(bytes, stream) {
    this.#texts[stream] += this.#decoders[stream].decode(bytes, { stream: true });
    return bytes.length;
  }

  text(stream) {
    return this.#texts[stream];
  }
}

/**
 * Runs the program once.
 * @param {import('./program').Program} program
 * @param {string[]} words its arguments
 * @param {string} text its standard input
 * @returns {{ status: number, output: string, errors: string }}
 */
function runText(program, words, text) {
  const written = new Written();
  const status = program.run(words, { read: reader(text), write: (bytes, stream) => written.take(bytes, stream) });
  return { status, output: written.text(1), errors: written.text(2) };
}

/**
 * The reply to one request of `elk-draw --lines`.
 * @param {import('./program').Program} program
 * @param {string} line the request, one line of JSON
 * @returns {string} the reply, one line of JSON without its line feed; a ProgramError if the program fails
 */
function replyTo(program, line) {
  const { status, output, errors } = runText(program, ['--lines'], line);
  if (status !== 0) {
    const ended = `ended with the status ${status}: ${errors.trim()}`;
    throw new ProgramError(`the program ${status === OUT_OF_MEMORY ? 'ran out of memory' : ended}`, { status });
  }
  return output.replace(/\n$/, '');
}

module.exports = { replyTo, runText };
