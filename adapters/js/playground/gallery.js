'use strict';
// The examples, each with its picture, which is drawn when the gallery is first opened.

class Gallery {
  #dialog;
  #list;
  #cards;
  #sketch;
  #without;
  // The theme in which the pictures were drawn.
  #drawnIn;

  /**
   * @param {HTMLDialogElement} dialog
   * @param {HTMLElement} list the room of the cards
   * @param {object} given
   * @param {{ id: string, title: string, text?: string }[]} given.examples without a text, no picture is drawn
   * @param {string} given.withoutPicture what stands there instead
   * @param {(example: object) => void} given.onChoice
   * @param {(example: object, theme: string) => Promise<string>} given.sketch draws an example as SVG
   */
  constructor(dialog, list, { examples, withoutPicture, onChoice, sketch }) {
    this.#dialog = dialog;
    this.#list = list;
    this.#sketch = sketch;
    this.#without = withoutPicture;
    this.#cards = examples.map((example) => ({ example, card: this.#cardOf(example, onChoice) }));
    list.append(...this.#cards.map(({ card }) => card));
  }

  #cardOf(example, onChoice) {
    const card = document.createElement('button');
    card.type = 'button';
    card.dataset.id = example.id;
    const [picture, title] = [document.createElement('span'), document.createElement('span')];
    picture.className = 'picture';
    picture.textContent = this.#without;
    title.textContent = example.title;
    card.append(picture, title);
    card.addEventListener('click', () => {
      this.#dialog.close();
      onChoice(example);
    });
    return card;
  }

  /** Opens the gallery, and draws what isn't drawn in this theme. */
  async open(theme) {
    this.#dialog.showModal();
    this.#list.querySelector('button').focus();
    if (this.#drawnIn === theme) {
      return;
    }
    this.#drawnIn = theme;
    const drawn = this.#cards.filter(({ example: { text } }) => text);
    // Pictures of another theme would glare.
    drawn.forEach(({ card }) => card.firstElementChild.replaceChildren());
    for (const { example, card } of drawn) {
      const svg = await this.#sketch(example, theme).catch(() => undefined);
      if (svg) {
        card.firstElementChild.innerHTML = svg;
        card.firstElementChild.setAttribute('aria-hidden', 'true');
      }
    }
  }
}

module.exports = { Gallery };
