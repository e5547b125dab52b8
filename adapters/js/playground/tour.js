'use strict';
// A tour for newcomers: each step has a small document and a sentence on what to try.

const STEPS = require('./tour.json');

class Tour {
  #parts;
  #onStep;
  #at = 0;

  /**
   * @param {{ tour: HTMLElement, count: HTMLElement, title: HTMLElement, words: HTMLElement, back: HTMLButtonElement,
   *   next: HTMLButtonElement, close: HTMLButtonElement }} parts
   * @param {(text: string) => void} onStep is given the document of a step
   */
  constructor(parts, onStep) {
    this.#parts = parts;
    this.#onStep = onStep;
    parts.back.addEventListener('click', () => this.#go(this.#at - 1));
    parts.next.addEventListener('click', () => (this.#at + 1 < STEPS.length ? this.#go(this.#at + 1) : this.#end()));
    parts.close.addEventListener('click', () => this.#end());
    parts.tour.addEventListener('keydown', ({ key }) => key === 'Escape' && this.#end());
  }

  begin() {
    this.#go(0);
    this.#parts.next.focus();
  }

  #end() {
    this.#parts.tour.hidden = true;
  }

  #go(at) {
    const { tour, count, title, words, back, next } = this.#parts;
    const step = STEPS[at];
    this.#at = at;
    tour.hidden = false;
    count.textContent = `Step ${at + 1} of ${STEPS.length}`;
    title.textContent = step.title;
    words.textContent = step.words;
    back.disabled = at === 0;
    next.textContent = at + 1 < STEPS.length ? 'Next' : 'Done';
    this.#onStep(step.text);
  }
}

module.exports = { STEPS, Tour };
