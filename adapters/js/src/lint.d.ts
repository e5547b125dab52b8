import ELK = require('./elk');

export interface LintOptions {
  /** Options of every element that has none of its own. */
  layoutOptions?: ELK.AnyOptions;
  /** As for the constructor of ELK: 'ceil' by default. */
  numbers?: 'ceil' | 'exact';
}

/** All faults and warnings of the text of a graph, without a layout: first the faults, in the order of the rules. */
export function lint(text: string, given?: LintOptions): ELK.Lint[];
