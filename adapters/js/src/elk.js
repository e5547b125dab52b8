'use strict';
// The call of elkjs.

const { engineOf } = require('./engines');
const { ProgramError, Refusal } = require('./errors');
const { errorOf, restored } = require('./graph/restored');
const { taken, takenOptions } = require('./graph/taken');
const { LAYOUT_ALGORITHMS, LAYOUT_CATEGORIES, LAYOUT_OPTIONS } = require('./known');

const NUMBERS = ['ceil', 'exact'];

const warned = new Set();

/** Writes a warning to the console, each kind and each name once. */
function warnOnce({ kind, steps, message }) {
  const key = `${kind} ${steps.at(-1)}`;
  if (!warned.has(key)) {
    warned.add(key);
    console.warn(`elk: ${message}`);
  }
}

function parsed(reply) {
  try {
    return JSON.parse(reply);
  } catch {
    return undefined;
  }
}

/** The reply to a request, and how many seconds the program took. */
async function answered(engine, request) {
  const { reply, seconds } = await engine.ask(JSON.stringify(request));
  const answer = parsed(reply);
  const hasAll = (...names) => names.every((name) => Object.hasOwn(Object(answer), name));
  if (!hasAll('fault') && !hasAll(...request.give)) {
    throw new ProgramError(`the program's reply is no answer: ${reply.slice(0, 80)}`);
  }
  return { ...answer, seconds };
}

/** Lays out graphs in ELK's JSON. */
class ELK {
  #engine;
  #numbers;
  #onWarning;

  /**
   * @param {object} [given]
   * @param {Record<string, unknown>} [given.defaultLayoutOptions] options for calls that have none
   * @param {'ceil' | 'exact'} [given.numbers] whether numbers are rounded, or fractions refused
   * @param {(warning: object) => void} [given.onWarning] receives what has no effect; by default the console shows each name once
   * @param {string} [given.program] in Node, the path of the program `elk-draw`, which then answers instead of the module
   * @param {string | URL} [given.workerUrl] the address of the worker's script, `lib/elk-worker.js`
   * @param {(url?: string | URL) => object} [given.workerFactory] makes a worker from that script
   */
  constructor({ defaultLayoutOptions = {}, numbers = 'ceil', onWarning = warnOnce, ...engine } = {}) {
    if (!NUMBERS.includes(numbers)) {
      throw new TypeError(`numbers is 'ceil' or 'exact', not ${JSON.stringify(numbers)}`);
    }
    this.defaultLayoutOptions = defaultLayoutOptions;
    this.#numbers = numbers;
    this.#onWarning = onWarning;
    this.#engine = engineOf(engine);
  }

  /**
   * Lays out a graph. The given object stays as it is.
   * @param {object} graph in ELK's JSON
   * @param {object} [given]
   * @param {Record<string, unknown>} [given.layoutOptions] options of every element that has none of its own, instead of the
   *   constructor's
   * @param {boolean} [given.logging] whether the result has `logging`: which program answered, and what had no effect
   * @param {boolean} [given.measureExecutionTime] whether `logging` has the time in seconds
   * @returns {Promise<object>} the placed graph; a Refusal if the graph can't be drawn, a ProgramError if the program fails
   */
  async layout(graph, { layoutOptions, logging = false, measureExecutionTime = false } = {}) {
    const { placed, warnings, seconds } = await this.#drawn(graph, layoutOptions, { give: ['placed'] });
    if (logging || measureExecutionTime) {
      placed.logging = {
        name: 'elk-draw',
        ...(measureExecutionTime && { executionTime: seconds }),
        ...(logging && { logs: warnings.map(({ message }) => message) }),
        children: [],
      };
    }
    return placed;
  }

  /**
   * Lays out a graph and draws it.
   * @param {object} graph as for `layout`
   * @param {object} [look]
   * @param {Record<string, unknown>} [look.layoutOptions] as for `layout`
   * @param {'auto' | 'light' | 'dark'} [look.theme]
   * @param {boolean} [look.arrows] whether edges have arrow heads
   * @returns {Promise<{ placed: object, svg: string }>}
   */
  async draw(graph, { layoutOptions, theme, arrows } = {}) {
    const { placed, svg } = await this.#drawn(graph, layoutOptions, { give: ['placed', 'svg'], theme, arrows });
    return { placed, svg };
  }

  /** Lays out a graph, as `draw` does, and returns the picture alone. */
  async svg(graph, { layoutOptions, theme, arrows } = {}) {
    const { svg } = await this.#drawn(graph, layoutOptions, { give: ['svg'], theme, arrows });
    return svg;
  }

  /**
   * Draws a graph that has places, from any program.
   * @param {object} placed
   * @param {{ theme?: 'auto' | 'light' | 'dark', arrows?: boolean }} [look]
   * @returns {Promise<string>}
   */
  async toSvg(placed, { theme, arrows } = {}) {
    const { sent, kept } = taken(placed, { isPlaced: true });
    const { fault, svg } = await answered(this.#engine, { placed: sent, give: ['svg'], theme, arrows });
    if (fault) {
      throw errorOf(fault, { sent, kept });
    }
    return svg;
  }

  /**
   * All faults and warnings of the text of a graph, without a layout.
   * @param {string} text
   * @param {{ layoutOptions?: Record<string, unknown> }} [given]
   * @returns {Promise<object[]>}
   */
  async lint(text, { layoutOptions = this.defaultLayoutOptions } = {}) {
    const options = takenOptions(layoutOptions);
    const { fault, lint } = await answered(this.#engine, { text, options, numbers: this.#numbers, give: ['lint'] });
    if (!lint) {
      throw errorOf(fault, {});
    }
    return lint;
  }

  async #drawn(graph, layoutOptions = this.defaultLayoutOptions, { give, ...look }) {
    if (!graph) {
      throw new Error("Missing mandatory parameter 'graph'.");
    }
    const { sent, kept } = taken(graph, { isExact: this.#numbers === 'exact' });
    const options = takenOptions(layoutOptions);
    const request = { graph: sent, options, numbers: this.#numbers, give: [...give, 'warnings'], ...look };
    const { fault, placed, warnings = [], ...rest } = await answered(this.#engine, request);
    warnings.forEach((warning) => this.#onWarning(warning));
    if (fault) {
      throw errorOf(fault, { sent, kept, options });
    }
    return { ...rest, warnings, placed: placed && restored(kept, placed) };
  }

  /** All options that the program reads. */
  async knownLayoutOptions() {
    return structuredClone(LAYOUT_OPTIONS);
  }

  /** All algorithms that the program has. */
  async knownLayoutAlgorithms() {
    return structuredClone(LAYOUT_ALGORITHMS);
  }

  /** The kinds of drawing that the algorithms make. */
  async knownLayoutCategories() {
    return structuredClone(LAYOUT_CATEGORIES);
  }

  /** Ends the worker or the process. Waiting calls fail; a later call starts a new one. */
  terminateWorker() {
    this.#engine.stop();
  }
}

// One object for `require`, for `import ELK from` and for `import { ELK } from`.
module.exports = ELK;
module.exports.ELK = ELK;
module.exports.default = ELK;
module.exports.Refusal = Refusal;
module.exports.ProgramError = ProgramError;
