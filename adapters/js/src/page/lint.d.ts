import ELK = require('../elk');
import { LintOptions } from '../lint';

export { LintOptions } from '../lint';

/** The same as in Node, by the worker of the page. */
export function lint(text: string, given?: LintOptions): Promise<ELK.Lint[]>;
