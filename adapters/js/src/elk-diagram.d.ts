import ELK = require('./elk');
import { Theme } from './svg';

/** <elk-diagram>: lays out its graph and draws it. The picture is as wide as its space allows, and has a role and a name. */
declare class ElkDiagram extends HTMLElement {
  /** The engine of all elements, made for the first graph; a page that serves the worker itself sets its own. */
  static elk?: Pick<ELK, 'draw'>;

  /** The graph in ELK's JSON; it stays unchanged. Set it again after a change. The attribute has it as text. */
  graph: object | undefined;

  /** Options of every element of the graph that has none of its own. */
  layoutOptions: ELK.AnyOptions | undefined;

  /** The colours, 'auto' by default; also an attribute. */
  theme: Theme;

  /** Whether edges have arrow heads; the attribute arrows="false" sets it to false. */
  arrows: boolean;

  /** The placed graph that is shown. */
  readonly placed: object | undefined;
}

declare namespace ElkDiagram {
  export { ElkDiagram, ElkDiagram as default };
}

declare global {
  interface HTMLElementTagNameMap {
    'elk-diagram': ElkDiagram;
  }

  interface HTMLElementEventMap {
    /** A graph was drawn; the detail is the placed graph. */
    'elk-placed': CustomEvent<object>;
    /** A graph couldn't be drawn: a Refusal, a ProgramError, or a SyntaxError if the attribute isn't JSON. */
    'elk-error': CustomEvent<Error>;
  }
}

export = ElkDiagram;
