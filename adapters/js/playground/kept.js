'use strict';
// What the browser keeps for this page alone: the text over a reload, and how the page looks.

const TEXT = 'elk-playground-text';
const THEME = 'elk-playground-theme';

/** Does something with a store, which may be closed to this page or full. */
function tried(act) {
  try {
    return act();
  } catch {
    return undefined;
  }
}

const stores = () => [tried(() => sessionStorage), tried(() => localStorage)].filter(Boolean);

/** @param {{ text: string, isPlaced: boolean }} given */
function keepText({ text, isPlaced }) {
  const value = JSON.stringify({ text, isPlaced });
  for (const store of stores()) {
    // What is too long for the store must not come back as a text that was there before.
    tried(() => store.removeItem(TEXT));
    tried(() => store.setItem(TEXT, value));
  }
}

/** The last text of this window, or else of any; undefined where there is none but blanks. */
function keptText() {
  const [value] = stores().map((store) => tried(() => store.getItem(TEXT))).filter(Boolean);
  const { text, isPlaced } = tried(() => JSON.parse(value)) ?? {};
  return typeof text === 'string' && text.trim() !== '' ? { text, isPlaced: isPlaced === true } : undefined;
}

const keepTheme = (theme) => tried(() => localStorage.setItem(THEME, theme));

const keptTheme = () => tried(() => localStorage.getItem(THEME)) ?? 'auto';

module.exports = { keepText, keepTheme, keptText, keptTheme };
