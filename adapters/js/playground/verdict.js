'use strict';
// The verdict of `elk-draw check` in words.

const DEFINITIONS = new Map([
  [6, ['Apart', 'nodes stand nearer to each other than the options ask for, or out of their order']],
  [7, ['Inside', 'a node or a route reaches beyond the padding of its group']],
  [8, ['PortsKept', 'a port, or the end of an edge, stands at a wrong place']],
  [9, ['Route', 'a route does not lead from end to end by right angles']],
  [10, ['Clear', 'a route meets a node that is not its own']],
  [11, ['Sharing', 'two routes share a piece, though no end']],
  [12, ['Reversed', 'an edge is listed as reversed and closes no cycle, or a cycle is left']],
  [13, ['Layering', 'an edge leads to no later layer, or the written span is wrong']],
  [14, ['FlowProof', 'the written flow does not show that the span is least']],
]);

/** The ids of a line, each as text of JSON, without a line for a place that is none. */
const idsIn = (places) => (places.match(/"(?:[^"\\]|\\.)*"|-?\d+/g) ?? []).join(' and ');

/**
 * @param {string} line what the program wrote
 * @returns {{ isGood: boolean, line: string, words: string }}
 */
function verdictOf(line) {
  const said = line.trim();
  const [, number, places] = /^no (\d+) ?(.*)$/s.exec(said) ?? [];
  if (said === 'yes') {
    return { isGood: true, line: said, words: 'the drawing keeps all rules' };
  }
  const [name, words] = DEFINITIONS.get(Number(number)) ?? [];
  if (!name) {
    return { isGood: false, line: said, words: said };
  }
  const ids = idsIn(places);
  return { isGood: false, line: said, words: `${words}${ids && `: ${ids}`} (${number}, ${name})` };
}

// The refusals of a document that the program could lay out.
const REFUSED = {
  NotJson: 'the text is not JSON, or is nested more than 127 deep',
  NotWhole: 'a number is not whole',
  Hyperedge: 'an edge has not one source and one target',
  CrossLevel: 'an edge joins nodes of two levels',
  NotPlaced: 'a place, a size, a route or the layering is missing, or has another form',
};

/**
 * Why a document isn't judged.
 * @param {string} line what the program wrote to stderr
 * @returns {{ name: string, id: string, message: string } | undefined} undefined if it is no refusal
 */
function refusalIn(line) {
  const [, rule, name, id] = /^refused (\d+) (\w+) (.*)$/s.exec(line.trim()) ?? [];
  if (name === undefined) {
    return undefined;
  }
  const words = REFUSED[name] ?? 'the document is refused';
  return {
    name,
    id: id.startsWith('"') ? JSON.parse(id) : id,
    message: `${words}${id === '-' ? '' : `: ${id}`} (rule ${rule}, ${name})`,
  };
}

module.exports = { refusalIn, verdictOf };
