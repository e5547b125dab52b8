'use strict';
// Light or dark: as the reader chose, or else as the system says.

const { keepTheme, keptTheme } = require('./kept');

const isDarkSystem = matchMedia('(prefers-color-scheme: dark)');

class Themes {
  #chooser;
  #onChange;

  /**
   * @param {HTMLSelectElement} chooser with the values auto, light and dark
   * @param {(isDark: boolean) => void} onChange
   */
  constructor(chooser, onChange) {
    this.#chooser = chooser;
    this.#onChange = onChange;
    chooser.value = keptTheme();
    chooser.selectedIndex = Math.max(chooser.selectedIndex, 0);
    chooser.addEventListener('change', () => {
      keepTheme(chooser.value);
      this.#show();
    });
    isDarkSystem.addEventListener('change', () => this.#show());
    this.#show();
  }

  get isDark() {
    const { value } = this.#chooser;
    return value === 'auto' ? isDarkSystem.matches : value === 'dark';
  }

  #show() {
    document.documentElement.dataset.theme = this.isDark ? 'dark' : 'light';
    this.#onChange(this.isDark);
  }
}

module.exports = { Themes };
