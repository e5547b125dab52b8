'use strict';
// What is said of a text: the list of faults, warnings and notes, the verdict, and the line at the foot of the page.

const LEADS = { warning: 'Warning, ', note: 'Note: ' };

const many = (count, thing) => `${count.toLocaleString('en')} ${thing}${count === 1 ? '' : 's'}`;

const placeWords = ({ line, column }) => (line === undefined ? '' : `line ${line}, column ${column}: `);

const restOf = (list, all, kind) =>
  all > list.length ? [{ message: `and ${many(all - list.length, kind)} more`, kind: 'rest' }] : [];

/** The lines of the list. */
const linesOf = ({ faults, warnings, notes = [], counts }) => [
  ...faults.map((it) => ({ ...it, kind: 'fault' })),
  ...restOf(faults, counts.faults, 'fault'),
  ...warnings.map((it) => ({ ...it, kind: 'warning' })),
  ...restOf(warnings, counts.warnings, 'warning'),
  ...notes.map((it) => ({ ...it, kind: 'note' })),
];

/** What is said of an answer, and of the drawing that came before it. */
function summaryOf({ faults, warnings, counts }, drawing) {
  if (faults.length > 0) {
    const [{ message, line, column }] = faults;
    return `${many(counts.faults, 'fault')}: ${placeWords({ line, column })}${message}`;
  }
  if (!drawing) {
    return 'This document has no size to draw: choose "Lay out".';
  }
  const { seconds, measures: { nodes, edges, width, height } } = drawing;
  const time = seconds === undefined ? '' : `, drawn in ${Math.max(1, Math.round(seconds * 1000)).toLocaleString('en')} ms`;
  const warned = warnings.length > 0 ? `; ${many(counts.warnings, 'warning')}` : '';
  return `${many(nodes, 'node')}, ${many(edges, 'edge')}, ${width} by ${height}${time}${warned}`;
}

const buttonOf = (words, act) => {
  const button = document.createElement('button');
  button.type = 'button';
  button.append(...words);
  button.addEventListener('click', act);
  return button;
};

/** The list of what is told of a text. */
class Told {
  #list;
  #onPlace;
  #onMend;

  /**
   * @param {HTMLElement} list
   * @param {{ onPlace: (place: object) => void, onMend: (mend: object) => void }} listener is told which place is asked
   *   for, and what is to be written where
   */
  constructor(list, { onPlace, onMend }) {
    this.#list = list;
    this.#onPlace = onPlace;
    this.#onMend = onMend;
  }

  show(lines) {
    this.#list.replaceChildren(...lines.map((line) => this.#itemOf(line)));
    this.#list.hidden = lines.length === 0;
    this.#list.inert = false;
  }

  /** What is told is of a text that has changed since. */
  age() {
    this.#list.inert = true;
  }

  /** A line; where it has a place, it leads there, and where it is known what was meant, it is mended by a button. */
  #itemOf({ message, line, column, kind, mend }) {
    const item = document.createElement('li');
    item.className = kind;
    const place = document.createElement('b');
    place.textContent = `${LEADS[kind] ?? ''}${placeWords({ line, column })}`;
    const words = [place, message];
    if (line === undefined) {
      const plain = document.createElement('span');
      plain.append(...words);
      item.append(plain);
      return item;
    }
    item.append(buttonOf(words, () => this.#onPlace({ line, column })));
    if (mend !== undefined) {
      const button = buttonOf([`Write ${mend}`], () => this.#onMend({ line, column, text: mend }));
      button.className = 'mend';
      item.append(button);
    }
    return item;
  }
}

module.exports = { Told, linesOf, many, summaryOf };
