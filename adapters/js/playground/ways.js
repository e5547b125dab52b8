'use strict';
// What is done with a text, laid out or judged, kept for each state to which undoing leads.

class Ways {
  #switches = [{ depth: 0, way: 'layout' }];
  #depth = 0;

  /** The way from now on, in a state with so many changes before it. */
  choose(way, depth) {
    this.#switches = [...this.#switches.filter((it) => it.depth < depth), { depth, way }];
    this.#depth = depth;
  }

  /**
   * The way that goes with a state.
   * @param {number} depth how many changes stand before it
   * @param {boolean} isUndone whether undoing or redoing has led there; else it is new, and what came after is gone
   */
  after(depth, isUndone) {
    if (!isUndone && depth > this.#depth) {
      this.#switches = this.#switches.filter((it) => it.depth < depth);
    }
    this.#depth = depth;
    return this.#switches.findLast((it) => it.depth <= depth)?.way ?? 'layout';
  }
}

module.exports = { Ways };
