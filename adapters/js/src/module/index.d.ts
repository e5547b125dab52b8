/** The streams of a run. Each call returns the number of bytes, or a negative number if it failed. */
export interface Streams {
  /** Fills the beginning of the room with input; 0 is the end. */
  read(room: Uint8Array): number;
  /** Takes output of stream 1 or 2. The bytes are valid only during the call. */
  write(bytes: Uint8Array, stream: 1 | 2): number;
}

/** The program `elk-draw` over its compiled module `elk-draw.wasm`. One object serves many runs. */
export class Program {
  /** @param module a WebAssembly.Module */
  constructor(module: object);

  /**
   * Runs the program once.
   * @param words its arguments
   * @returns the exit status
   */
  run(words: string[], streams: Streams): number;
}

/** Runs the program once with texts as its streams. */
export function runText(
  program: Program,
  words: string[],
  text: string,
): { status: number; output: string; errors: string };

/** The reply to one request of `elk-draw --lines`. Throws a ProgramError if the program fails. */
export function replyTo(program: Program, line: string): string;

/**
 * The bytes of a module with an upper limit of its memory. If the program needs more, it ends with status 6.
 * @param most in bytes, rounded down to whole pages
 */
export function withMemoryLimit(bytes: Uint8Array, most: number): Uint8Array;
