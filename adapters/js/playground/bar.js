'use strict';
// The bar of a layout that takes long.

// So long it may take without a bar, in milliseconds.
const BAR_AFTER = 300;

const TICK = 250;

/**
 * @param {{ busy: HTMLElement, phase: HTMLElement }} parts
 * @param {() => void} onShow is told when the bar comes
 * @returns {{ tell: (phase: string) => void, end: () => void }}
 */
function watch({ busy, phase }, onShow) {
  const since = performance.now();
  let now = 'reading';
  const show = () => {
    busy.hidden = false;
    phase.textContent = `${now} … ${Math.floor((performance.now() - since) / 1000)} s`;
  };
  const first = setTimeout(() => {
    onShow();
    show();
  }, BAR_AFTER);
  const ticks = setInterval(() => performance.now() - since > BAR_AFTER && show(), TICK);
  return {
    tell: (next) => {
      now = next;
    },
    end: () => {
      clearTimeout(first);
      clearInterval(ticks);
    },
  };
}

module.exports = { watch };
