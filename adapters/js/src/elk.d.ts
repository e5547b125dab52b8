// The types of elkjs, so code that compiles with them compiles with these, and the types that this engine adds.

import { Look } from './svg';

declare class ELK {
  constructor(given?: ELK.ELKConstructorArguments);

  /**
   * Lays out a graph. The given object stays unchanged; the result has its own elements and lists.
   * If the engine can't draw the graph, the promise is rejected with a Refusal.
   */
  layout<T extends ELK.AnyNode>(
    graph: T & ELK.NoElkNode<T>,
    given?: ELK.AnyLayoutArguments,
  ): Promise<ELK.Placed<T>>;
  layout<T extends ELK.ElkNode>(graph: T, given?: ELK.AnyLayoutArguments): Promise<ELK.PlacedElkNode<T>>;

  /** Lays out a graph and draws it. */
  draw<T extends ELK.AnyNode>(
    graph: T & ELK.NoElkNode<T>,
    look?: ELK.DrawArguments,
  ): Promise<{ placed: ELK.Placed<T>; svg: string }>;
  draw<T extends ELK.ElkNode>(graph: T, look?: ELK.DrawArguments): Promise<{ placed: ELK.PlacedElkNode<T>; svg: string }>;

  /** Lays out a graph and returns its picture alone. */
  svg(graph: ELK.AnyNode, look?: ELK.DrawArguments): Promise<string>;

  /** Draws a graph that has places, from any program. */
  toSvg(placed: object, look?: Look): Promise<string>;

  /** All faults and warnings of the text of a graph, without a layout: first the faults, in the order of the rules. */
  lint(text: string, given?: { layoutOptions?: ELK.AnyOptions }): Promise<ELK.Lint[]>;

  /** All options that the program reads. */
  knownLayoutOptions(): Promise<ELK.ElkLayoutOptionDescription[]>;

  /** All algorithms that the program has. */
  knownLayoutAlgorithms(): Promise<ELK.ElkLayoutAlgorithmDescription[]>;

  /** The kinds of drawing that the algorithms make. */
  knownLayoutCategories(): Promise<ELK.ElkLayoutCategoryDescription[]>;

  /** Ends the worker or the process. Waiting calls fail; a later call starts a new one. */
  terminateWorker(): void;

  /** Options for calls that have none. */
  defaultLayoutOptions?: ELK.AnyOptions;
}

declare namespace ELK {
  export { ELK, ELK as default };

  // What elkjs has.

  export interface LayoutOptions {
    [key: string]: string;
  }

  export interface ElkPoint {
    x: number;
    y: number;
  }

  export interface ElkGraphElement {
    id?: string;
    labels?: ElkLabel[];
    layoutOptions?: LayoutOptions;
  }

  export interface ElkShape extends ElkGraphElement {
    x?: number;
    y?: number;
    width?: number;
    height?: number;
  }

  export interface ElkNode extends ElkShape {
    id: string;
    children?: ElkNode[];
    ports?: ElkPort[];
    edges?: ElkExtendedEdge[];
  }

  export interface ElkPort extends ElkShape {
    id: string;
  }

  export interface ElkLabel extends ElkShape {
    text?: string;
  }

  export interface ElkEdge extends ElkGraphElement {
    id: string;
    /** The points where the route parts from those of other edges with the same port, or joins them; each belongs to one edge. */
    junctionPoints?: ElkPoint[];
    /** The node to which the points are relative. */
    container?: string;
  }

  export interface ElkPrimitiveEdge extends ElkEdge {
    source: string;
    sourcePort?: string;
    target: string;
    targetPort?: string;
    /** Other engines write these; here every edge has sections. */
    sourcePoint?: ElkPoint;
    targetPoint?: ElkPoint;
    bendPoints?: ElkPoint[];
  }

  export interface ElkExtendedEdge extends ElkEdge {
    sources: string[];
    targets: string[];
    sections?: ElkEdgeSection[];
  }

  export interface ElkEdgeSection extends ElkGraphElement {
    id: string;
    startPoint: ElkPoint;
    endPoint: ElkPoint;
    bendPoints?: ElkPoint[];
    incomingShape?: string;
    outgoingShape?: string;
    /** For an edge with several ends: the sections before this one, and those after it. */
    incomingSections?: string[];
    outgoingSections?: string[];
  }

  export interface ElkLayoutArguments {
    /** Options of every element that has none of its own; they override those of the constructor. */
    layoutOptions?: LayoutOptions;
    /** Whether the result has `logging`: which program answered, and what had no effect. */
    logging?: boolean;
    /** Whether `logging` has the time in seconds. */
    measureExecutionTime?: boolean;
  }

  export interface ElkCommonDescription {
    id?: string;
    name?: string;
    description?: string;
  }

  export interface ElkLayoutAlgorithmDescription extends ElkCommonDescription {
    category?: string;
    knownOptions?: string[];
    supportedFeatures?: string[];
  }

  export interface ElkLayoutOptionDescription extends ElkCommonDescription {
    group?: string;
    type?: string;
    targets?: string[];
  }

  export interface ElkLayoutCategoryDescription extends ElkCommonDescription {
    knownLayouters?: string[];
  }

  export interface ELKConstructorArguments {
    /** Options for calls that have none. */
    defaultLayoutOptions?: AnyOptions;
    /** Accepted as in elkjs, without effect. */
    algorithms?: string[];
    /** The address of the worker's script, `lib/elk-worker.js`. */
    workerUrl?: string;
    /** Makes a worker from that script. */
    workerFactory?: (url?: string) => any;
    /**
     * 'ceil', the default, rounds sizes, spacings and paddings up and places of ports to the nearest whole number; 'exact' sends
     * everything as given.
     */
    numbers?: 'ceil' | 'exact';
    /** In Node, the path of the program `elk-draw`, which then answers instead of the module. */
    program?: string;
    /** Receives a warning for everything that has no effect; by default the console shows each name once. */
    onWarning?: (warning: Warning) => void;
  }

  /** The other name in elkjs. */
  export type ElkConstructorArguments = ELKConstructorArguments;

  /** A graph with its drawing. */
  export type PlacedElkNode<T extends ElkNode> = {
    [K in keyof T]: K extends 'children' ? Items<T[K], ElkNode> : K extends 'edges' ? Items<T[K], Routed> : T[K];
  } & PlacedRoot &
    ElkNode;

  // What this engine adds.

  /** Ids may also be numbers: 1 and '1' differ. */
  export type Id = string | number;

  /** Values may also be numbers and booleans. */
  export interface AnyOptions {
    [key: string]: string | number | boolean;
  }

  export interface AnyLayoutArguments extends Omit<ElkLayoutArguments, 'layoutOptions'> {
    layoutOptions?: AnyOptions;
  }

  /** The arguments of `draw` and `svg`. */
  export interface DrawArguments extends Look {
    layoutOptions?: AnyOptions;
  }

  export interface AnyElement {
    id?: Id;
    labels?: AnyLabel[];
    layoutOptions?: AnyOptions;
    properties?: AnyOptions;
  }

  export interface AnyShape extends AnyElement {
    x?: number;
    y?: number;
    width?: number;
    height?: number;
  }

  export interface AnyLabel extends AnyShape {
    text?: string;
  }

  export interface AnyPort extends AnyShape {
    id: Id;
  }

  /** In the extended form, or in the primitive one. */
  export interface AnyEdge extends AnyElement {
    id: Id;
    sources?: Id[];
    targets?: Id[];
    source?: Id;
    sourcePort?: Id;
    target?: Id;
    targetPort?: Id;
  }

  /** A node with any ids, values of options and forms of edges that the engine accepts. */
  export interface AnyNode extends AnyShape {
    children?: AnyNode[];
    ports?: AnyPort[];
    edges?: AnyEdge[];
  }

  /** A graph of any form with its drawing. */
  export type Placed<T extends AnyNode> = {
    [K in keyof T]: K extends 'children' ? Items<T[K], AnyShape> : K extends 'edges' ? Items<T[K], Routed> : T[K];
  } & PlacedRoot;

  /** Excludes graphs with the types of elkjs, or without a type; these get the types of elkjs. */
  export type NoElkNode<T> = 0 extends 1 & T ? never : T extends ElkNode ? never : unknown;

  /** The items of a list with the members that they get when they are placed. */
  export type Items<L, Added> = L extends readonly (infer Item)[] ? (Item & Added)[] : L;

  export interface Routed {
    sections?: ElkEdgeSection[];
    junctionPoints?: ElkPoint[];
    container?: any;
    /** If the routes aren't orthogonal. The bend points of SPLINES are control points, two for each piece. */
    routing?: 'POLYLINE' | 'SPLINES';
  }

  export interface PlacedRoot {
    x: number;
    y: number;
    width: number;
    height: number;
    /** The certificate of a level, if it was drawn as given. */
    layering?: ElkLayering;
    /** If the call asked for it. */
    logging?: ElkLogging;
  }

  /** Layers by child, reversed edges, and a flow which shows that the span is minimal. */
  export interface ElkLayering {
    layers: number[];
    reversed: Id[];
    flow: number[];
    span: number;
    parts?: number[];
  }

  export interface ElkLogging {
    name: string;
    executionTime?: number;
    logs?: string[];
    children: ElkLogging[];
  }

  /** One reason for which a document is refused. */
  export interface Fault {
    /** The number of the rule, 0 to 13, and its name, such as CrossLevel. */
    readonly rule: number;
    readonly name: string;
    /** The id of the element at fault, if the rule names one. */
    readonly id?: Id;
    /** The members that lead to the fault, and the same as a script would write it. */
    readonly steps: readonly (string | number)[];
    readonly path: string;
    /** The value there, and the allowed values in words. */
    readonly found?: unknown;
    readonly allowed?: string;
    /** What may have been meant. */
    readonly near?: Id;
    /** For an end of an edge: which end. */
    readonly end?: 'source' | 'target';
    /** For an option: its name and, if they are few, all its values. */
    readonly option?: string;
    readonly values?: readonly string[];
    /** The part of the message about this place, and the whole message with the rule. */
    readonly detail: string;
    readonly message: string;
  }

  /** Something that doesn't have the intended effect. */
  export interface Warning {
    readonly kind:
      | 'unknownOption'
      | 'unclearOption'
      | 'foreignOption'
      | 'unknownValue'
      | 'misplacedOption'
      | 'shortOption'
      | 'adapterOption'
      | 'unknownMember'
      | 'wideLabel'
      | 'doubleMember';
    readonly id?: Id;
    readonly steps: readonly (string | number)[];
    readonly path: string;
    readonly near?: string;
    readonly option?: string;
    readonly message: string;
  }

  /** A fault or a warning of a text, with its place there. */
  export type Lint = (({ readonly severity: 'fault' } & Fault) | ({ readonly severity: 'warning' } & Warning)) & {
    /** Line and column from 1, the line itself, perhaps cut, and the position in it from 0. */
    readonly line?: number;
    readonly column?: number;
    readonly source?: string;
    readonly mark?: number;
  };

  /** A graph isn't drawn. */
  export class Refusal extends Error {
    /** The number of the rule, 0 to 13, and its name, such as CrossLevel. */
    readonly rule: number;
    readonly name: string;
    /** The id of the element at fault, if the rule names one. */
    readonly id?: Id;
    /** These are from the first fault. */
    readonly path?: string;
    readonly found?: unknown;
    readonly allowed?: string;
    readonly near?: Id;
    readonly option?: string;
    readonly values?: readonly string[];
    /** All faults of the document, that of the rule first. */
    readonly faults: readonly Fault[];
  }

  /** The program can't be started, or ended before it replied. */
  export class ProgramError extends Error {
    readonly status?: number;
    readonly signal?: string;
  }
}

export = ELK;
