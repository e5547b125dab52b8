'use strict';
// The forms in which a text gives a graph: JSON, DOT, and lines such as `a -> b : label`.

const json = { ...require('./json/choices'), ...require('./json/places') };
const dot = { ...require('./dot/choices'), ...require('./dot/places') };
const { tokensOfLines } = require('./dot/lines');
const { tokensOf } = require('./dot/tokens');
const { OPTIONS } = require('./options');

/** The options that have a control, each with its name on the page. */
const CHOSEN = [
  ['direction', 'Direction'],
  ['edgeRouting', 'Edges'],
  ['spacing.nodeNode', 'Node gap'],
  ['layered.spacing.nodeNodeBetweenLayers', 'Layer gap'],
  ['layered.nodePlacement.strategy', 'Placement'],
  ['layered.effort', 'Effort'],
].map(([name, title]) => ({ title, ...OPTIONS.get(name) }));

const HEADER = /^(?:\s|\/\/.*|\/\*[^]*?\*\/|#.*)*(?:strict\s+)?(?:di)?graph\b[^{}[\];]*\{/i;

/** What DOT has for an option by default; nothing where it has no attribute for it. */
const DOT_DEFAULTS = { direction: 'DOWN', 'spacing.nodeNode': '18', 'layered.spacing.nodeNodeBetweenLayers': '36', edgeRouting: 'ORTHOGONAL' };

const inDot = ({ name, ...option }) => ({
  ...{ name, ...option, default: DOT_DEFAULTS[name] ?? option.default },
  ...(!(name in DOT_DEFAULTS) && { lack: 'DOT has no attribute for this' }),
});

/** What is done with a text of a form. The program reads lines as DOT without its frame, so that they differ in little. */
const formOfDot = (form, tokens) => ({
  title: form === 'dot' ? 'DOT' : 'Lines',
  controls: CHOSEN.map(inDot),
  request: (text) => ({ dot: text }),
  placesIn: (text, placed) => dot.placesIn(text, tokens(text), placed),
  chosenIn: (text) => dot.chosenIn(text, { form, tokens }),
  withOption: (text, name, value) => dot.withAttribute(text, name, value, { form, tokens }),
});

const FORMS = {
  json: {
    title: 'JSON',
    controls: CHOSEN,
    request: (text) => ({ text }),
    placesIn: json.placesIn,
    chosenIn: (text) => json.chosenIn(text, CHOSEN.map(({ name }) => name)),
    withOption: json.withOption,
  },
  dot: formOfDot('dot', tokensOf),
  lines: formOfDot('lines', tokensOfLines),
};

/**
 * The form of a text, by what it begins with.
 * @param {string} text
 * @returns {'json' | 'dot' | 'lines'}
 */
function formOf(text) {
  if (/^\s*[{[]/.test(text)) {
    return 'json';
  }
  if (HEADER.test(text)) {
    return 'dot';
  }
  return /->|--/.test(text) ? 'lines' : 'json';
}

module.exports = { FORMS, formOf };
