'use strict';
// Pointers over the drawing: one moves it, two zoom it too, and a click chooses an element.

const { isEdge } = require('./picture');

// A pointer that moves less, in pixels, has clicked.
const CLICK = 4;

const midOf = ([one, other]) => ({ x: (one.x + other.x) / 2, y: (one.y + other.y) / 2 });

const distanceOf = ([one, other]) => Math.hypot(one.x - other.x, one.y - other.y);

class Pointers {
  #stage;
  #view;
  #places = new Map();
  #pressed;

  /**
   * @param {HTMLElement} stage
   * @param {ShadowRoot} root holds the picture
   * @param {object} view
   * @param {() => boolean} view.isEmpty whether there is no picture
   * @param {(x: number, y: number) => void} view.move
   * @param {(by: number, at: { x: number, y: number }) => void} view.zoom
   * @param {(element: Element | undefined) => void} view.light
   * @param {(element: Element) => void} view.choose
   */
  constructor(stage, root, view) {
    this.#stage = stage;
    this.#view = view;
    stage.addEventListener('wheel', (event) => this.#wheeled(event), { passive: false });
    stage.addEventListener('pointerdown', (event) => this.#pressedAt(event));
    stage.addEventListener('pointermove', (event) => this.#dragged(event));
    stage.addEventListener('pointerup', (event) => this.#released(event));
    for (const kind of ['pointerup', 'pointercancel']) {
      stage.addEventListener(kind, ({ pointerId }) => {
        this.#places.delete(pointerId);
        stage.classList.toggle('dragging', this.#places.size > 0);
      });
    }
    stage.addEventListener('pointerleave', () => view.light(undefined));
    root.addEventListener('pointerover', ({ target }) => {
      if (this.#places.size === 0) {
        const element = target.closest('[data-id]');
        view.light(element && isEdge(element) ? element : undefined);
      }
    });
    // A click leads to the text, and with a key that opens new windows to the link of an element.
    root.addEventListener('click', (event) => {
      if (event.target.closest('a') && !event.ctrlKey && !event.metaKey) {
        event.preventDefault();
      }
    });
  }

  #placeOf({ clientX, clientY }) {
    const { left, top } = this.#stage.getBoundingClientRect();
    return { x: clientX - left, y: clientY - top };
  }

  #wheeled(event) {
    event.preventDefault();
    // Some browsers tell lines in place of pixels.
    const pixels = event.deltaY * (event.deltaMode === 1 ? 16 : 1);
    this.#view.zoom(Math.exp(-pixels / (event.ctrlKey ? 100 : 400)), this.#placeOf(event));
  }

  #pressedAt(event) {
    if (event.button === 0 && !this.#view.isEmpty()) {
      this.#pressed = { place: this.#placeOf(event), target: event.composedPath()[0] };
      this.#places.set(event.pointerId, this.#placeOf(event));
      this.#stage.setPointerCapture(event.pointerId);
      this.#stage.classList.add('dragging');
    }
  }

  #released(event) {
    const { place, target } = this.#pressed ?? {};
    const drawn = target?.closest?.('[data-id]');
    if (drawn && this.#places.size === 1 && distanceOf([place, this.#placeOf(event)]) < CLICK) {
      this.#view.choose(drawn);
    }
    this.#pressed = undefined;
  }

  #dragged(event) {
    if (!this.#places.has(event.pointerId)) {
      return;
    }
    const before = [...this.#places.values()];
    this.#places.set(event.pointerId, this.#placeOf(event));
    const after = [...this.#places.values()];
    const [from, to] = after.length === 2 ? [midOf(before), midOf(after)] : [before[0], after[0]];
    this.#view.move(to.x - from.x, to.y - from.y);
    if (after.length === 2 && distanceOf(before) > 0) {
      this.#view.zoom(distanceOf(after) / distanceOf(before), to);
    }
  }
}

module.exports = { Pointers };
