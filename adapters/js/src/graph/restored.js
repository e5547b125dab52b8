'use strict';
// What the program replies, put back into the caller's own elements and words.

const { ProgramError, Refusal } = require('../errors');
const { halfPair } = require('./faults');
const { LISTS } = require('./taken');

const BOX = ['x', 'y', 'width', 'height'];

// What a layout writes at elements. What an earlier one has left there is outdated.
const WRITTEN = {
  node: [...BOX, 'layering'],
  port: BOX,
  label: BOX,
  edge: ['sections', 'junctionPoints', 'bendPoints', 'sourcePoint', 'targetPoint', 'container', 'routing'],
};

const isObject = (value) => typeof value === 'object' && value !== null && !Array.isArray(value);

/**
 * A placed graph with all members of the given one.
 * @param {object} kept the copy that `taken` has made; changed in place
 * @param {object} placed the program's reply, with the same elements in the same order
 */
function restored(kept, placed, kind = 'node') {
  if (!isObject(kept) || !isObject(placed)) {
    return kept;
  }
  for (const name of WRITTEN[kind]) {
    if (name in placed) {
      kept[name] = placed[name];
    } else if (name in kept) {
      delete kept[name];
    }
  }
  for (const [name, inner] of Object.entries(LISTS[kind])) {
    if (Array.isArray(kept[name]) && Array.isArray(placed[name])) {
      kept[name].forEach((it, at) => restored(it, placed[name][at], inner));
    }
  }
  return kept;
}

/** The first text in a sent value that has half of a surrogate pair, by the steps to it. */
function stepsToHalfPair(value, steps = []) {
  if (typeof value === 'string') {
    return /\p{Surrogate}/u.test(value) ? steps : undefined;
  }
  for (const name of isObject(value) || Array.isArray(value) ? Object.keys(value) : []) {
    const inner = [...steps, Array.isArray(value) ? Number(name) : name];
    const found = /\p{Surrogate}/u.test(name) ? inner : stepsToHalfPair(value[name], inner);
    if (found) {
      return found;
    }
  }
  return undefined;
}

const valueAt = (root, steps) => steps.reduce((value, step) => value?.[step], root);

/** A fault with the value that the caller has given, for which JSON has only null: NaN, an infinite number, or a gap in a list. */
function inOwnWords(fault, { kept, options }) {
  const isOfCall = fault.path?.endsWith(' of the call');
  const own = fault.found === null ? valueAt(isOfCall ? { layoutOptions: options } : kept, fault.steps) : null;
  const isGap = own === undefined && typeof fault.steps.at(-1) === 'number';
  if (!isGap && (typeof own !== 'number' || Number.isFinite(own))) {
    return fault;
  }
  const told = (text) => text.replace(' is null', ` is ${own}`);
  return { ...fault, found: own, detail: told(fault.detail), message: told(fault.message) };
}

/**
 * The error for the fault that the program has told.
 * @param {object} fault
 * @param {{ sent: unknown, kept: unknown, options: unknown }} call what was taken of the call
 */
function errorOf({ faults, ...fault }, call) {
  if (fault.rule === null) {
    const steps = stepsToHalfPair(call.sent);
    return steps ? halfPair(steps) : new ProgramError(`the program doesn't take this request: ${fault.message}`);
  }
  return new Refusal({ ...inOwnWords(fault, call), ...(faults && { faults: faults.map((it) => inOwnWords(it, call)) }) });
}

module.exports = { errorOf, restored };
