'use strict';

/** A graph that isn't drawn. */
class Refusal extends Error {
  /** @param {object} fault with its members as the program writes them; `faults` lists all faults of the graph */
  constructor({ message, faults, ...fault }) {
    super(message);
    Object.assign(this, fault);
    this.id = fault.id ?? undefined;
    this.faults = faults ?? [{ ...fault, message }];
  }
}

/** A program that can't be started, or that ended before it had replied. */
class ProgramError extends Error {
  /**
   * @param {string} message
   * @param {{ status?: number, signal?: string, cause?: Error }} [how] how it ended
   */
  constructor(message, { status, signal, cause } = {}) {
    super(message, cause && { cause });
    this.name = 'ProgramError';
    this.status = status;
    this.signal = signal;
  }
}

module.exports = { ProgramError, Refusal };
