'use strict';
// Draws the text, judges the drawing, and knows what is shown.

const { watch } = require('./bar');
const { Desk, Stopped } = require('./desk');
const { keepText } = require('./kept');
const { linesOf, summaryOf } = require('./told');

class Drawer {
  #desk;
  #newWorker;
  // Drawings are judged beside what goes on with the text, so that the next one is drawn at once.
  #judges;
  #page;
  #bar;
  // The last answer that has a drawing, and whether it is that of the text as it is.
  #shown;
  #isCurrent = false;
  #places = [];

  /**
   * @param {Desk} desk
   * @param {() => Worker} newWorker
   * @param {object} page
   * @param {(id: string) => HTMLElement} page.find
   * @param {import('./board').Board} page.board
   * @param {import('./view').View} page.view
   * @param {() => { text: string, form: string, isPlaced: boolean }} page.asked what is to be drawn
   * @param {() => { arrows: boolean, theme: string }} page.look how
   * @param {(chosen: object) => void} page.onPlaces hears that the places of the text are known, and its options
   */
  constructor(desk, newWorker, page) {
    this.#desk = desk;
    this.#newWorker = newWorker;
    this.#page = page;
  }

  /** What is drawn of the text as it is; undefined if nothing is. */
  get drawing() {
    return this.#isCurrent ? this.#shown : undefined;
  }

  /** Where in the text the elements of the drawing stand; nowhere if the text is another one. */
  get places() {
    return this.#isCurrent ? this.#places : [];
  }

  /** The places of the last text for which they were found. */
  get lastPlaces() {
    return this.#places;
  }

  enable() {
    const { view, board } = this.#page;
    board.enable({ hasDrawing: this.drawing?.placed !== undefined, isEmpty: view.isEmpty, isCurrent: this.#isCurrent });
  }

  /** The text has changed, or what is done with it. */
  outdate() {
    this.#isCurrent = false;
    this.enable();
  }

  clear() {
    this.#page.view.clear();
    this.#shown = undefined;
  }

  #takeDrawing(drawing) {
    const { board, view } = this.#page;
    this.#shown = drawing;
    this.#isCurrent = true;
    board.hint(undefined);
    board.tellVerdict(undefined);
    view.show(drawing.svg);
    this.enable();
  }

  /** Takes what the worker tells before its answer. */
  #takeNews({ drawing, placed, places, chosen }) {
    if (drawing) {
      this.#takeDrawing(drawing);
    } else if (placed) {
      this.#shown.placed = placed;
      this.enable();
    } else {
      this.#places = places;
      this.#page.onPlaces(chosen);
    }
  }

  #takeAnswer(answer, drawing) {
    const { board, view } = this.#page;
    board.tell(linesOf(answer));
    if (!drawing) {
      board.hint(view.isEmpty ? 'There is no drawing of a graph with faults.' : undefined);
    }
    board.tellVerdict(answer.verdict);
    board.say(summaryOf(answer, drawing));
    this.enable();
  }

  async #judge(asked, answer) {
    this.#judges ??= new Desk(this.#newWorker);
    const { notes = [], ...judged } = await this.#judges.ask({ kind: 'judge', ...asked });
    return { ...answer, ...judged, notes: [...(answer.notes ?? []), ...notes] };
  }

  #begin() {
    const { find, board } = this.#page;
    this.#bar?.end();
    this.#bar = watch({ busy: find('busy'), phase: find('phase') }, () => board.say('Working; Stop ends it.'));
    return this.#bar;
  }

  #end() {
    this.#bar?.end();
    this.#bar = undefined;
    this.#page.find('busy').hidden = true;
  }

  /** Draws the text as it is, and judges the drawing. */
  async draw() {
    const bar = this.#begin();
    try {
      await this.#drawWith(bar, this.#page.asked(), this.#page.look());
    } catch (error) {
      if (!(error instanceof Stopped)) {
        this.#page.board.forget();
        this.#page.board.sayFailed(error);
      }
    } finally {
      bar.end();
      if (this.#bar === bar) {
        this.#end();
      }
    }
    await this.redraw();
  }

  async #drawWith(bar, asked, look) {
    const isAsked = () => this.#bar === bar && asked.text === this.#page.asked().text;
    let drawing;
    const onNews = (news) => {
      if (news.phase) {
        bar.tell(news.phase);
      } else if (isAsked()) {
        drawing ??= news.drawing && { ...news.drawing, look };
        this.#takeNews({ ...news, ...(news.drawing && { drawing }) });
      }
    };
    const answered = this.#desk.ask({ kind: 'answer', ...asked, look }, onNews);
    keepText(asked);
    const answer = await answered;
    if (isAsked() && !asked.isPlaced) {
      this.#takeAnswer(answer, drawing);
    }
    if (isAsked() && (drawing || asked.isPlaced)) {
      bar.tell('checking');
      const judged = await this.#judge(asked, answer);
      if (isAsked()) {
        this.#takeAnswer(judged, drawing);
      }
    }
  }

  stop() {
    this.#desk.stop();
    this.#judges?.stop();
    this.#end();
    this.#page.board.forget();
    this.#page.board.say('Stopped. A change of the text draws anew.');
  }

  /** The drawing that is shown, in another look. */
  async pictureIn(look) {
    const { svg } = await this.#desk.ask({ kind: 'picture', placed: this.#shown.placed, look }, undefined, { isPatient: true });
    return svg;
  }

  /** Draws what is shown in the look that is asked for now, if it has another one. Nothing is laid out for that. */
  async redraw() {
    const { view, board } = this.#page;
    const [drawing, look] = [this.drawing, this.#page.look()];
    if (!drawing?.placed || drawing.look.arrows === look.arrows) {
      return;
    }
    try {
      const svg = await this.pictureIn(look);
      if (this.drawing === drawing) {
        this.#shown = { ...drawing, svg, look };
        view.show(svg);
        this.#page.onPlaces();
      }
    } catch (error) {
      if (!(error instanceof Stopped)) {
        board.sayFailed(error);
      }
    }
  }
}

module.exports = { Drawer };
