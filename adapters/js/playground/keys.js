'use strict';
// Keys that move the drawing and light its elements.

// A step of the keys, as a part of the stage.
const STEP = 0.12;

const ACTS = {
  ArrowLeft: (view) => view.step(STEP, 0),
  ArrowRight: (view) => view.step(-STEP, 0),
  ArrowUp: (view) => view.step(0, STEP),
  ArrowDown: (view) => view.step(0, -STEP),
  '+': (view) => view.zoom(1.25),
  '=': (view) => view.zoom(1.25),
  '-': (view) => view.zoom(0.8),
  0: (view) => view.fit(),
  e: (view) => view.lightNext('edge', 1),
  E: (view) => view.lightNext('edge', -1),
  n: (view) => view.lightNext('node', 1),
  N: (view) => view.lightNext('node', -1),
  Enter: (view) => view.chooseLit(),
  Escape: (view) => view.light(undefined),
};

/** Makes a stage hear the keys of its view. */
function hearKeys(stage, view) {
  stage.addEventListener('keydown', (event) => {
    const act = ACTS[event.key];
    if (act && !event.ctrlKey && !event.metaKey && !event.altKey) {
      event.preventDefault();
      act(view);
    }
  });
}

module.exports = { hearKeys };
