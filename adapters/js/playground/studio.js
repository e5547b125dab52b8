'use strict';
// What the playground tells of a text: what is wrong with it, and its drawing. All of it comes from the program.

const { ProgramError } = require('../src/errors');
const { replyTo, runText } = require('../src/module');
const { FORMS } = require('./forms');
const { withSizes } = require('./json/sizes');
const { Judge } = require('./judge');
const { told } = require('./remarks');

/** How often elements of these kinds occur in a placed graph, and its size. */
function measuresOf(placed) {
  let [nodes, edges] = [-1, 0];
  const waiting = [placed];
  while (waiting.length > 0) {
    const { children = [], edges: own = [] } = waiting.pop();
    nodes += 1;
    edges += own.length;
    for (const child of children) {
      waiting.push(child);
    }
  }
  return { id: placed.id, nodes, edges, width: placed.width, height: placed.height };
}

/** What is told of nodes that were given a size: once, at the first of them. */
function notesOn(sized, places) {
  if (sized.length === 0) {
    return [];
  }
  const [{ start }] = sized;
  const { id, line, column } = places.find((it) => it.start === start) ?? {};
  const many = sized.length > 1 ? `${sized.length.toLocaleString('en')} nodes have` : `the node ${JSON.stringify(id)} has`;
  const take = sized.length > 1 ? 'they take the sizes of their texts' : 'it takes the size of its text';
  return [{ message: `${many} no size, so ${take}; write "width" and "height" to choose`, line, column }];
}

/** A value of JSON that is drawn; undefined for other texts. */
function valueOf(text) {
  try {
    return JSON.parse(text);
  } catch {
    return undefined;
  }
}

/** Answers one text after the other. */
class Studio {
  #program;

  /** @param {import('../src/module').Program} program */
  constructor(program) {
    this.#program = program;
  }

  /** The program's reply to a request. */
  #ask(request) {
    return JSON.parse(replyTo(this.#program, JSON.stringify(request)));
  }

  /** All that can be said of a text without a layout. */
  #remarks(text, form) {
    const { lint } = this.#ask({ ...FORMS[form].request(text), give: ['lint'] });
    return told(lint);
  }

  /** The request for a text, in which every node has a size. */
  #requestFor(text, form) {
    const { text: sized, nodes } = form === 'json' ? withSizes(text, (request) => this.#ask(request)) : { text, nodes: [] };
    return { graph: FORMS[form].request(sized), nodes };
  }

  #layOut({ text, form, look }, tell) {
    tell({ phase: 'laying out' });
    const since = performance.now();
    const { graph, nodes } = this.#requestFor(text, form);
    const { fault, svg, placed } = this.#ask({ ...graph, ...look, give: ['svg', 'placed'] });
    if (!fault) {
      const seconds = (performance.now() - since) / 1000;
      tell({ drawing: { svg, seconds, measures: measuresOf(placed) } });
      tell({ phase: 'reading' });
      tell({ placed: JSON.stringify(placed) });
    }
    const remarks = this.#remarks(text, form);
    if (fault) {
      return remarks;
    }
    const places = FORMS[form].placesIn(text, placed);
    tell({ places, chosen: FORMS[form].chosenIn(text) });
    return { ...remarks, notes: notesOn(nodes, places) };
  }

  /** Draws a placed graph. What can't be judged may be drawn all the same, such as an answer of ELK. */
  #show({ text, look }, tell) {
    tell({ phase: 'drawing' });
    const value = valueOf(text);
    if ([value?.width, value?.height].every(Number.isFinite)) {
      const { status, output } = this.#picture(text, look);
      if (status === 0) {
        tell({ drawing: { svg: output, measures: measuresOf(value) } });
        tell({ placed: text });
        tell({ places: FORMS.json.placesIn(text), chosen: {} });
      }
    }
    return told([]);
  }

  #picture(placed, { theme, arrows }) {
    const words = [...(theme === 'auto' ? [] : [`--${theme}`]), ...(arrows ? [] : ['--no-arrows'])];
    return runText(this.#program, ['--placed', ...words], placed);
  }

  /**
   * A drawing that was made before, in another look.
   * @param {string} placed
   * @param {{ theme: 'auto' | 'light' | 'dark', arrows: boolean }} look
   * @returns {string} its picture
   */
  pictureOf(placed, look) {
    const { status, output, errors } = this.#picture(placed, look);
    if (status !== 0) {
      throw new ProgramError(errors.trim(), { status });
    }
    return output;
  }

  /** The picture of a text without a fault alone; undefined if there is none. */
  sketch({ text, form, isPlaced, look }) {
    if (isPlaced) {
      return this.pictureOf(text, look);
    }
    return this.#ask({ ...this.#requestFor(text, form).graph, ...look, give: ['svg'] }).svg;
  }

  /**
   * @param {object} asked
   * @param {string} asked.text a graph
   * @param {'json' | 'dot' | 'lines'} asked.form how the text gives it
   * @param {boolean} [asked.isPlaced] whether it is shown as it is placed, and not laid out
   * @param {{ theme: 'auto' | 'light' | 'dark', arrows: boolean }} asked.look of the picture
   * @param {(news: { phase: string } | { drawing: object } | { placed: string } | { places: object[], chosen: object }) => void} [tell]
   *   hears what is done next, the drawing, the placed graph as JSON, and where in the text its elements stand, with the
   *   options that have a control
   * @returns {object} the faults, the warnings and the notes
   */
  answer(asked, tell = () => {}) {
    return asked.isPlaced ? this.#show(asked, tell) : this.#layOut(asked, tell);
  }

  /**
   * Judges a text that has a drawing.
   * @param {{ text: string, form: 'json' | 'dot' | 'lines', isPlaced?: boolean }} asked
   * @returns {{ verdict?: object, faults?: object[], notes?: object[] }} the verdict; without one, the faults for which there is none
   */
  judge({ text, form, isPlaced = false }) {
    const judge = new Judge(this.#program, (request) => this.#ask(request));
    return isPlaced ? judge.placed(text) : judge.laidOut(this.#requestFor(text, form).graph);
  }
}

module.exports = { Studio };
