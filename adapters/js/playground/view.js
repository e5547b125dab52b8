'use strict';
// The drawing: it is moved, made larger and smaller, and its nodes and edges light up.

const { hearKeys } = require('./keys');
const { closeTo, fitted, moved, resized, zoomed } = require('./part');
const { LIT, MARKED, STYLE, chosenOf, elementsIn, groupsIn, isEdge, isLarge, largestText, partsOf, pictureIn, widen, wordsOf } = require('./picture');
const { Pointers } = require('./pointers');

// A large picture is drawn anew only when it has come to rest, so long after it was moved, in milliseconds.
const REST = 150;

// Letters that are lower, in pixels, can't be read and aren't drawn.
const READABLE = 4;

/** Does something when the next frame has been drawn. */
const afterFrame = (act) => requestAnimationFrame(() => setTimeout(act));

class View {
  #stage;
  #root;
  // The rules that turn the picture dark, and whether they hold.
  #dark = document.createElement('style');
  #rules = '';
  #isDark = false;
  #largestText = 0;
  // The size of the stage: asking for it would lay a new picture out before all is known of it.
  #size = { clientWidth: 0, clientHeight: 0 };
  #picture;
  // The text from which the picture was made.
  #svg;
  #whole;
  // The part of it that the stage shows, and the one for which it was drawn.
  #part;
  #drawnPart;
  #isFitted = true;
  // Whether all of it is shown whatever part the reader chose.
  #isWhole = false;
  #isDue = false;
  #rest;
  #lit;
  #marked;
  // What is to be lit and marked when it has been read.
  #wanted = {};
  #onLit;
  #onChoice;

  /**
   * @param {HTMLElement} stage
   * @param {HTMLElement} host what holds the picture, apart from the page's own style
   * @param {object} listener
   * @param {(words: string) => void} listener.onLit is told what lights up, and nothing where nothing does
   * @param {(chosen: { kind: 'node' | 'edge', id: string }) => void} listener.onChoice is told which element is clicked
   */
  constructor(stage, host, { onLit, onChoice }) {
    this.#stage = stage;
    this.#onLit = onLit;
    this.#onChoice = onChoice;
    this.#root = host.attachShadow({ mode: 'open' });
    const style = document.createElement('style');
    style.textContent = STYLE;
    this.#root.append(style, this.#dark);
    this.#hear();
    this.#measure();
    new ResizeObserver(() => this.#resized()).observe(stage);
  }

  #hear() {
    const view = {
      isEmpty: () => this.isEmpty,
      move: (x, y) => this.move(x, y),
      step: (x, y) => this.move(x * this.#size.clientWidth, y * this.#size.clientHeight),
      zoom: (by, at) => this.zoom(by, at),
      fit: () => this.fit(),
      light: (element) => this.#light(element),
      lightNext: (kind, by) => this.#lightNext(kind, by),
      choose: (element) => this.#onChoice(chosenOf(element)),
      chooseLit: () => this.#lit && this.#onChoice(chosenOf(this.#lit)),
    };
    new Pointers(this.#stage, this.#root, view);
    hearKeys(this.#stage, view);
  }

  #measure() {
    const { clientWidth, clientHeight } = this.#stage;
    this.#size = { clientWidth, clientHeight };
  }

  /** Shows the picture as for a dark page, or for a light one. On paper it is light. */
  set isDark(isDark) {
    this.#isDark = isDark;
    this.#showTheme();
  }

  #showTheme() {
    this.#dark.textContent = this.#isDark ? this.#rules : '';
  }

  get isEmpty() {
    return this.#picture === undefined;
  }

  /** Shows a picture; it is fitted unless the last one was moved. */
  show(svg) {
    // Many changes of a text, such as blanks, change nothing that is drawn.
    if (svg !== this.#svg) {
      this.#svg = svg;
      this.#largestText = largestText(svg);
      const [first, ...later] = partsOf(svg);
      this.#put(pictureIn(first));
      this.#addInTurn(this.#picture, later);
    }
  }

  #put(picture) {
    const [x, y, width, height] = picture.getAttribute('viewBox').split(' ').map(Number);
    this.#whole = { x, y, width, height };
    this.#takeRules(picture);
    const [lit, marked] = [this.#lit, this.#marked].map((it) => it && chosenOf(it));
    this.#light(undefined);
    this.#mark(undefined);
    this.#wanted = { lit, marked };
    const former = this.#picture;
    this.#picture = picture;
    if (this.#isFitted || !this.#part) {
      this.#part = fitted(this.#whole, this.#size);
      this.#isFitted = true;
    }
    this.#drawPart();
    this.#takeOver();
    if (former) {
      former.replaceWith(picture);
    } else {
      this.#root.append(picture);
    }
  }

  /** Adds the later parts of a picture one after the other, and then what only pointers meet. */
  #addInTurn(picture, parts) {
    const addNext = () => {
      if (this.#picture !== picture) {
        return;
      }
      if (parts.length > 0) {
        picture.append(...groupsIn(parts.shift()));
        this.#takeOver();
        afterFrame(addNext);
      } else if (!this.#isLarge) {
        elementsIn(picture, 'edge').forEach(widen);
      }
    };
    afterFrame(addNext);
  }

  /** What was lit or marked in the last picture is so in this one. */
  #takeOver() {
    const { lit, marked } = this.#wanted;
    if (lit && !this.#lit) {
      this.#light(this.#find(lit));
    }
    if (marked && !this.#marked) {
      this.#mark(this.#find(marked));
    }
  }

  /** The element of a kind and an id. */
  #find({ kind, id }) {
    return this.#picture && elementsIn(this.#picture, kind).find(({ dataset }) => dataset.id === id);
  }

  /** The picture follows the theme of the page, and not that of the system. */
  #takeRules(picture) {
    const style = picture.querySelector(':scope > style');
    this.#rules = style?.textContent.replace('(prefers-color-scheme:dark)', 'screen') ?? '';
    style?.remove();
    this.#showTheme();
  }

  clear() {
    this.#light(undefined);
    this.#picture?.remove();
    [this.#picture, this.#svg, this.#marked] = [];
    this.#wanted = {};
    this.#isFitted = true;
  }

  /** Marks the element in whose text the caret stands; nothing where none is given. */
  point(chosen) {
    this.#wanted.marked = chosen;
    this.#mark(chosen && this.#find(chosen));
  }

  #mark(element) {
    this.#marked?.removeAttribute(MARKED);
    element?.setAttribute(MARKED, '');
    this.#marked = element;
  }

  /** Lights an element and moves the drawing so that it stands in the middle, large enough to be read. */
  reveal(chosen) {
    const element = this.#find(chosen);
    if (element) {
      this.#drawnPart = undefined;
      this.#showPart(closeTo(element.getBBox(), this.#size));
      this.#light(element);
    }
  }

  fit() {
    if (!this.isEmpty) {
      this.#showPart(fitted(this.#whole, this.#size));
      this.#isFitted = true;
    }
  }

  /** Zooms so that a point of the stage stays where it is. */
  zoom(by, at = { x: this.#size.clientWidth / 2, y: this.#size.clientHeight / 2 }) {
    if (!this.isEmpty) {
      this.#showPart(zoomed(this.#part, this.#size, by, at));
    }
  }

  /** Moves the picture by pixels of the stage. */
  move(x, y) {
    if (!this.isEmpty) {
      this.#showPart(moved(this.#part, this.#size, x, y));
    }
  }

  #showPart(part) {
    this.#part = part;
    this.#isFitted = false;
    this.#draw();
  }

  /** Lights the next of the nodes or edges, or the one before. */
  #lightNext(kind, by) {
    const list = this.isEmpty ? [] : elementsIn(this.#picture, kind);
    const count = list.length;
    if (count > 0) {
      const from = list.indexOf(this.#lit);
      const at = from >= 0 ? from + by : by > 0 ? 0 : -1;
      this.#light(list[(at + count) % count]);
    }
  }

  #light(element) {
    if (this.#lit === element) {
      return;
    }
    this.#lit?.removeAttribute(LIT);
    element?.setAttribute(LIT, '');
    this.#lit = element;
    this.#wanted.lit = undefined;
    this.#picture?.toggleAttribute('data-lighting', element !== undefined && isEdge(element));
    this.#onLit(wordsOf(element));
  }

  /** Shows all of the picture, as for paper, or the part that was shown before. */
  showWhole(isWhole) {
    this.#isWhole = isWhole;
    if (!this.isEmpty) {
      this.#drawPart();
    }
  }

  get #isLarge() {
    return this.#svg !== undefined && isLarge(this.#svg);
  }

  // However often it is moved, it is drawn once a frame.
  #draw() {
    if (this.#isDue) {
      return;
    }
    this.#isDue = true;
    requestAnimationFrame(() => {
      this.#isDue = false;
      if (this.isEmpty) {
        return;
      }
      if (this.#isLarge && this.#drawnPart && !this.#isFitted) {
        this.#shift();
      } else {
        this.#drawPart();
      }
    });
  }

  #drawPart() {
    clearTimeout(this.#rest);
    const { x, y, width, height } = this.#isWhole ? this.#whole : this.#part;
    this.#picture?.setAttribute('viewBox', `${x} ${y} ${width} ${height}`);
    this.#picture?.removeAttribute('data-moving');
    this.#picture?.style.removeProperty('transform');
    const isFar = (this.#largestText * this.#size.clientWidth) / width < READABLE;
    this.#picture?.toggleAttribute('data-far', isFar);
    this.#drawnPart = this.#part;
  }

  /** Shows the part by moving what was drawn, which is blurred and may lack something at first. */
  #shift() {
    const [from, to] = [this.#drawnPart, this.#part];
    const scale = this.#size.clientWidth / to.width;
    const [left, top] = [(from.x - to.x) * scale, (from.y - to.y) * scale];
    this.#picture.setAttribute('data-moving', '');
    this.#picture.style.transform = `translate(${left}px, ${top}px) scale(${from.width / to.width})`;
    clearTimeout(this.#rest);
    this.#rest = setTimeout(() => this.#drawPart(), REST);
  }

  #resized() {
    // Paper has its own size.
    if (this.#isWhole) {
      return;
    }
    this.#measure();
    if (this.isEmpty) {
      return;
    }
    if (this.#isFitted) {
      this.fit();
    } else {
      this.#drawnPart = undefined;
      this.#showPart(resized(this.#part, this.#size));
    }
  }
}

module.exports = { View };
