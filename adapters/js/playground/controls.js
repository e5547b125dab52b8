'use strict';
// The controls of options. Each shows what the text says, and writes into the text.

const { FORMS } = require('./forms');

const WORDS = { RIGHT: 'right', LEFT: 'left', DOWN: 'down', UP: 'up', SPLINES: 'curves', POLYLINE: 'slanted', BRANDES_KOEPF: 'Brandes and Köpf' };

const wordsOf = (value) => WORDS[value] ?? value.toLowerCase().replace(/_/g, ' ');

/** All values. The default is none: it is chosen by taking the option away. */
function listOf({ values, default: byDefault }) {
  const list = document.createElement('select');
  const others = values.filter((value) => value !== 'UNDEFINED' && value !== byDefault);
  list.append(new Option(wordsOf(byDefault), ''), ...others.map((value) => new Option(wordsOf(value), value)));
  return list;
}

function fieldOf({ low, high, default: byDefault }) {
  const field = document.createElement('input');
  Object.assign(field, { type: 'number', min: low, max: high, step: 1, placeholder: byDefault });
  return field;
}

const valueOf = ({ type, value }) => (value === '' ? undefined : type === 'number' ? Number(value) : value);

const OFF = 'A drawing that is judged as it is placed has no options to choose';

class Controls {
  #host;
  #onChoice;
  #fields = new Map();
  #form;

  /**
   * @param {HTMLElement} host
   * @param {(name: string, value: string | number | undefined) => void} onChoice hears which option is to have which
   *   value; without one it is to go
   */
  constructor(host, onChoice) {
    this.#host = host;
    this.#onChoice = onChoice;
  }

  /** Shows the controls that a form of texts has. */
  set form(form) {
    if (this.#form !== form) {
      this.#form = form;
      this.#fields = new Map(FORMS[form].controls.map((option) => [option.name, this.#controlOf(option)]));
      this.#host.replaceChildren(...[...this.#fields.values()].map(({ label }) => label));
    }
  }

  #controlOf(option) {
    const [label, field] = [document.createElement('label'), option.values ? listOf(option) : fieldOf(option)];
    field.dataset.option = option.name;
    field.addEventListener('change', () => field.checkValidity() && this.#onChoice(option.name, valueOf(field)));
    label.append(`${option.title} `, field);
    this.#put(label, field, option.lack);
    return { label, field, lack: option.lack };
  }

  /** Puts a control out of use, with the reason. */
  #put(label, field, why) {
    field.disabled = why !== undefined;
    label.title = why ?? '';
  }

  /** Shows the values of a text. What isn't in the list is shown as the default. */
  show(chosen) {
    for (const [name, { field }] of this.#fields) {
      const value = String(chosen[name] ?? '');
      field.value = field.localName === 'select' ? value.toUpperCase() : value;
      if (field.selectedIndex === -1) {
        field.value = '';
      }
    }
  }

  set isOff(isOff) {
    this.#fields.forEach(({ label, field, lack }) => this.#put(label, field, isOff ? OFF : lack));
  }
}

module.exports = { Controls };
