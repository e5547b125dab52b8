'use strict';
// The border between the text and the drawing, which is moved by the pointer or by keys.

const [LEAST, MOST, STEP] = [10, 90, 4];

const STEPS = { ArrowLeft: -STEP, ArrowUp: -STEP, ArrowRight: STEP, ArrowDown: STEP };

/**
 * @param {HTMLElement} border
 * @param {HTMLElement} panes what stands on both sides of it, beside or above one another
 */
function hearBorder(border, panes) {
  const isStacked = () => getComputedStyle(panes).flexDirection === 'column';
  const put = (share) => {
    const part = Math.round(Math.min(Math.max(share, LEAST), MOST));
    panes.style.setProperty('--share', `${part}%`);
    border.setAttribute('aria-valuenow', part);
  };
  border.addEventListener('pointerdown', ({ pointerId }) => border.setPointerCapture(pointerId));
  border.addEventListener('pointermove', ({ pointerId, clientX, clientY }) => {
    if (border.hasPointerCapture(pointerId)) {
      const { left, top, width, height } = panes.getBoundingClientRect();
      put(isStacked() ? ((clientY - top) / height) * 100 : ((clientX - left) / width) * 100);
    }
  });
  border.addEventListener('keydown', (event) => {
    if (STEPS[event.key]) {
      event.preventDefault();
      put(Number(border.getAttribute('aria-valuenow')) + STEPS[event.key]);
    }
  });
}

module.exports = { hearBorder };
