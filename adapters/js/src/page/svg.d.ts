import { Look } from '../svg';

export { Look, Style, Theme } from '../svg';

/** The same as in Node, by the worker of the page. */
export function toSvg(placed: object, look?: Look): Promise<string>;
