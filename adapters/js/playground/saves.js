'use strict';
// Saves the drawing as a file, and copies it.

const { formatted } = require('./json/format');
const { copyPicture, pngOf, save } = require('./save');

const nameOf = ({ measures }) => String(measures.id ?? 'drawing').replace(/[^\w-]+/g, '-').slice(0, 60) || 'drawing';

class Saves {
  #drawer;
  #look;
  #say;

  /**
   * @param {import('./drawer').Drawer} drawer
   * @param {() => object} look in which pictures of pixels are made
   * @param {(words: string) => void} say
   */
  constructor(drawer, look, say) {
    this.#drawer = drawer;
    this.#look = look;
    this.#say = say;
  }

  async #png() {
    return pngOf(await this.#drawer.pictureIn(this.#look()));
  }

  #made(kind, { svg, placed }) {
    return {
      // The file follows its reader's setting.
      svg: () => new Blob([svg], { type: 'image/svg+xml' }),
      png: () => this.#png(),
      json: () => new Blob([formatted(placed)], { type: 'application/json' }),
    }[kind]();
  }

  async save(kind) {
    try {
      const { drawing } = this.#drawer;
      const name = `${nameOf(drawing)}.${kind}`;
      save(name, await this.#made(kind, drawing));
      this.#say(`Saved as ${name}.`);
    } catch ({ message }) {
      this.#say(`This can't be saved: ${message}.`);
    }
  }

  async copy() {
    try {
      await copyPicture(this.#png());
      this.#say('The picture is copied.');
    } catch ({ message }) {
      this.#say(`The picture can't be copied: ${message}.`);
    }
  }
}

module.exports = { Saves };
