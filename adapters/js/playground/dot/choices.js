'use strict';
// Attributes of a whole graph in DOT that stand for options: what a text says of them, and how one is written into it.

// So many units are an inch.
const INCH = 72;

const NAMES = { RIGHT: 'LR', LEFT: 'RL', DOWN: 'TB', UP: 'BT' };

const CURVES = { ORTHOGONAL: 'ortho', POLYLINE: 'polyline', SPLINES: 'true' };

const valueIn = (names, word) => Object.keys(names).find((value) => names[value].toLowerCase() === word.toLowerCase());

const named = (names) => ({ toDot: (value) => names[value], toOption: (word) => valueIn(names, word) });

const IN_INCHES = {
  toDot: (value) => String(Number((value / INCH).toFixed(4))),
  toOption: (word) => (Number.isFinite(Number(word)) ? Math.round(Number(word) * INCH) : undefined),
};

/** The attributes, by the names of the options for which they stand. */
const ATTRIBUTES = {
  direction: { name: 'rankdir', ...named(NAMES) },
  edgeRouting: { name: 'splines', ...named(CURVES) },
  'spacing.nodeNode': { name: 'nodesep', ...IN_INCHES },
  'layered.spacing.nodeNodeBetweenLayers': { name: 'ranksep', ...IN_INCHES },
};

const DEPTHS = { '{': 1, '}': -1 };

/**
 * The attributes of the whole graph that a text sets, each with the tokens of its name and its value.
 * @param {Iterable<object>} tokens
 * @param {number} outermost how many braces stand around the statements of the graph
 */
function attributesIn(tokens, outermost) {
  const found = [];
  let [depth, before, last, isGraph, bracket] = [0, undefined, undefined, false, 0];
  for (const token of tokens) {
    const { text } = token;
    depth += bracket > 0 ? 0 : DEPTHS[text] ?? 0;
    bracket += text === '[' ? 1 : text === ']' ? -1 : 0;
    isGraph = bracket > 0 ? isGraph || (text === '[' && last?.text.toLowerCase() === 'graph') : false;
    if (depth === outermost && (bracket === 0 || isGraph) && last?.text === '=' && before?.name && token.name !== undefined) {
      found.push({ key: before.name, start: before.start, value: token });
    }
    [before, last] = [last, token];
  }
  return found;
}

/** How lines and DOT differ: lines have no braces around them. */
const outermostOf = (form) => (form === 'lines' ? 0 : 1);

const attributeIn = (text, name, { form, tokens }) => [...attributesIn(tokens(text), outermostOf(form))].findLast(({ key }) => key === name);

/** An attribute as the first statement of a graph. */
function statementIn(text, statement, { form, tokens }) {
  if (form === 'lines') {
    return { from: 0, to: 0, text: `${statement}\n` };
  }
  const brace = [...tokens(text)].find((it) => it.text === '{');
  if (!brace) {
    return undefined;
  }
  const indent = /^[ \t]*\n([ \t]*)/.exec(text.slice(brace.end));
  return { from: brace.end, to: brace.end, text: indent ? `\n${indent[1]}${statement};` : ` ${statement};` };
}

/** The letters of an attribute, with what parts it from the next statement. */
function letters(text, { start, value: { end } }) {
  const [behind] = /^[ \t]*[;,]?[ \t]*/.exec(text.slice(end));
  const [indent] = /[ \t]*$/.exec(text.slice(0, start));
  const isLine = /^(\n|$)/.test(text.slice(end + behind.length)) && /(^|\n)[ \t]*$/.test(text.slice(0, start));
  return { from: start - (isLine ? indent.length : 0), to: Math.min(end + behind.length + (isLine ? 1 : 0), text.length), text: '' };
}

/**
 * The change of a text that gives its graph the attribute for an option, or takes it away.
 * @param {string} text
 * @param {string} option
 * @param {string | number | undefined} value undefined takes the attribute away
 * @param {{ form: 'dot' | 'lines', tokens: (text: string) => Iterable<object> }} how
 * @returns {{ from: number, to: number, text: string } | undefined} what is written instead of which letters
 */
function withAttribute(text, option, value, how) {
  const { name, toDot } = ATTRIBUTES[option];
  const found = attributeIn(text, name, how);
  if (value === undefined) {
    return found && letters(text, found);
  }
  const word = toDot(value);
  return found ? { from: found.value.start, to: found.value.end, text: word } : statementIn(text, `${name}=${word}`, how);
}

/** The values of options, by their names, for which a text has attributes. */
function chosenIn(text, how) {
  const all = attributesIn(how.tokens(text), outermostOf(how.form));
  const valueOf = ({ name, toOption }) => {
    const found = all.findLast(({ key }) => key === name);
    return found && toOption(found.value.name);
  };
  const values = Object.entries(ATTRIBUTES).map(([option, attribute]) => [option, valueOf(attribute)]);
  return Object.fromEntries(values.filter(([, value]) => value !== undefined));
}

module.exports = { ATTRIBUTES, chosenIn, withAttribute };
