'use strict';
// The one process of the program that serves all calls, one after the other.

const { spawn } = require('node:child_process');
const { ProgramError } = require('../errors');

const LINE_FEED = 0x0a;

// A run of `elk-draw --lines` reads no more bytes than these. Then another is started.
const MOST_BYTES = 2 ** 32;

// The status if the arguments are invalid.
const USAGE = 5;

// How much is kept of what the program writes to stderr.
const MOST_NOTES = 4096;

/** Cuts a stream of bytes into lines. A line is decoded whole, since a piece may end within a letter. */
class LineCutter {
  #pieces = [];

  /** @returns {string[]} the lines that end in this piece */
  take(piece) {
    const lines = [];
    let start = 0;
    for (let end = piece.indexOf(LINE_FEED); end >= 0; end = piece.indexOf(LINE_FEED, start)) {
      this.#pieces.push(piece.subarray(start, end));
      lines.push(Buffer.concat(this.#pieces).toString('utf8'));
      this.#pieces = [];
      start = end + 1;
    }
    if (start < piece.length) {
      this.#pieces.push(piece.subarray(start));
    }
    return lines;
  }
}

// A process that is left behind ends by itself at the end of its input. This ends a busy one.
const running = new Set();
process.on('exit', () => running.forEach((child) => child.kill()));

/** One run of the program. */
class Run {
  #child;
  #sent = 0;
  #notes = '';
  #hasEnded = false;
  #listener;

  /**
   * @param {string} program
   * @param {{ onLine: (line: string) => void, onEnd: (error: ProgramError) => void }} listener gets each line of the
   *   output, and once the end
   */
  constructor(program, listener) {
    this.#listener = listener;
    this.#child = spawn(program, ['--lines'], { stdio: 'pipe' });
    running.add(this.#child);
    this.#listen(program);
  }

  #listen(program) {
    const cutter = new LineCutter();
    const { stdin, stdout, stderr } = this.#child;
    this.#child.on('error', (cause) => {
      this.#end(new ProgramError(`the program ${program} can't be started: ${cause.message}`, { cause }));
    });
    this.#child.on('close', (status, signal) => this.#end(this.#endOf(program, status, signal)));
    // If the program has ended, its 'close' event says more.
    stdin?.on('error', () => {});
    stdout?.on('data', (piece) => cutter.take(piece).forEach((line) => this.#tell(line)));
    stderr?.on('data', (piece) => this.#note(piece.toString('utf8')));
  }

  // What a process says after its end would be taken for a reply of the next one.
  #tell(line) {
    if (!this.#hasEnded) {
      this.#listener.onLine(line);
    }
  }

  // Shows the launcher's message that it builds the program, which takes hours.
  #note(text) {
    this.#notes = (this.#notes + text).slice(-MOST_NOTES);
    if (/^elk(-draw)?: /.test(text) && !this.#hasEnded) {
      process.emitWarning(text.trim());
    }
  }

  #endOf(program, status, signal) {
    const how = signal ? `was ended by ${signal}` : `ended with the status ${status}`;
    const age = status === USAGE ? ', because it does not know --lines: name the program elk-draw' : '';
    const notes = this.#notes.trim();
    return new ProgramError(`the program ${program} ${how}${age}${notes ? `: ${notes}` : ''}`, {
      status: status ?? undefined,
      signal: signal ?? undefined,
    });
  }

  #end(error) {
    running.delete(this.#child);
    if (!this.#hasEnded) {
      this.#hasEnded = true;
      this.#listener.onEnd(error);
    }
  }

  /** Whether a line of this many bytes can still be sent. */
  hasRoom(bytes, most) {
    return this.#sent + bytes <= most;
  }

  send(line) {
    this.#sent += line.length;
    this.#child.stdin?.write(line);
  }

  /** Whether Node waits for the process before it ends. */
  keepAlive(isWaiting) {
    const { stdin, stdout, stderr } = this.#child;
    for (const handle of [this.#child, stdin, stdout, stderr]) {
      if (isWaiting) {
        handle?.ref?.();
      } else {
        handle?.unref?.();
      }
    }
  }

  /** Lets the process end by itself, because nothing more is sent. */
  retire() {
    this.#hasEnded = true;
    this.keepAlive(false);
    this.#child.stdin?.end();
  }

  /** Ends the process at once. */
  kill() {
    this.retire();
    this.#child.kill();
  }
}

/** A queue of requests, to which the program replies in order, one line to each. */
class Lines {
  #program;
  #most;
  #run;
  // The first of these is at the program.
  #calls = [];

  /**
   * @param {string} program the path of the program, which is started at the first call
   * @param {number} [most] how many bytes one run of it is sent
   */
  constructor(program, most = MOST_BYTES) {
    this.#program = program;
    this.#most = most;
  }

  /**
   * @param {string} line without a line feed
   * @returns {Promise<{ reply: string, seconds: number }>} the reply, and how long the program took
   */
  ask(line) {
    return new Promise((resolve, reject) => {
      this.#calls.push({ line, resolve, reject });
      if (this.#calls.length === 1) {
        this.#sendFirst();
      }
    });
  }

  /** Ends the process. All waiting calls fail; a later one starts it again. */
  stop() {
    this.#run?.kill();
    this.#failAll(new ProgramError('the program was ended by terminateWorker()'));
  }

  #sendFirst() {
    const [call] = this.#calls;
    const bytes = Buffer.from(`${call.line}\n`);
    try {
      this.#runFor(bytes.length).send(bytes);
    } catch (cause) {
      this.#failAll(new ProgramError(`the program ${this.#program} can't be started: ${cause.message}`, { cause }));
      return;
    }
    call.line = undefined;
    call.since = performance.now();
    this.#run.keepAlive(true);
  }

  #runFor(bytes) {
    if (this.#run && !this.#run.hasRoom(bytes, this.#most)) {
      this.#run.retire();
      this.#run = undefined;
    }
    this.#run ??= new Run(this.#program, {
      onLine: (reply) => this.#resolveFirst(reply),
      onEnd: (error) => this.#failAll(error),
    });
    return this.#run;
  }

  #resolveFirst(reply) {
    const call = this.#calls.shift();
    // An unasked line belongs to no call.
    if (!call) {
      this.stop();
      return;
    }
    if (this.#calls.length > 0) {
      this.#sendFirst();
    } else {
      this.#run.keepAlive(false);
    }
    call.resolve({ reply, seconds: (performance.now() - call.since) / 1000 });
  }

  #failAll(error) {
    this.#run = undefined;
    for (const call of this.#calls.splice(0)) {
      call.reject(error);
    }
  }
}

module.exports = { LineCutter, Lines };
