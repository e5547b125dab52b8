'use strict';
// What the page tells of options, by the data that all packages share.

const { adapter, elk, olderPrefix, options, prefixes } = require('../data/options.json');

// What the program adds to the engine's options: values that it draws itself, and defaults of its own.
const DRAWN = {
  edgeRouting: { values: ['UNDEFINED', 'ORTHOGONAL', 'POLYLINE', 'SPLINES'] },
  'layered.nodePlacement.strategy': { default: 'NETWORK_SIMPLEX' },
  'layered.straightness': { default: '4' },
  'layered.slots': { default: 'UNCROSSED' },
  separateConnectedComponents: { default: 'true' },
};

/** All options that have an effect, by their names. */
const OPTIONS = new Map([...options, ...adapter].map((option) => [option.name, { ...option, ...DRAWN[option.name] }]));

const NAMES = new Set([...OPTIONS.keys(), ...elk]);

const PREFIXES = [olderPrefix, ...prefixes];

/** The name of the option that a key means: the name itself, or an ending that no other option has. */
function nameOf(key) {
  const name = key.slice(PREFIXES.find((it) => key.startsWith(it)).length);
  if (NAMES.has(name)) {
    return name;
  }
  const ending = [...NAMES].filter((it) => `${prefixes[0]}${it}`.endsWith(`.${key}`));
  return ending.length === 1 ? ending[0] : undefined;
}

const valuesOf = ({ words, values }) => words ?? values.join(', ');

module.exports = { OPTIONS, nameOf, valuesOf };
