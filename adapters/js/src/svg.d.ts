/** Colours: for light pages, for dark pages, or by the reader's setting. */
export type Theme = 'auto' | 'light' | 'dark';

/** How a picture looks. */
export interface Look {
  /** The colours, 'auto' by default. */
  theme?: Theme;
  /** Whether edges have arrow heads, true by default. */
  arrows?: boolean;
}

/** The member `style` of a node, an edge or a label. Invalid values are ignored. */
export interface Style {
  /** The shape of a node within its box; a group is a box or round. */
  shape?: 'box' | 'round' | 'ellipse' | 'circle' | 'diamond';
  /** The colour of a node's inside: #rgb, #rrggbb, either with transparency, a name, or rgb() or hsl(). */
  fill?: string;
  /** The colour of a node's outline, or of an edge. */
  stroke?: string;
  /** The colour of texts; by default dark on a light fill, and light on a dark one. */
  color?: string;
  /** Classes of the node's shape or the edge's group, separated by spaces: a letter, then letters, digits, - or _. */
  class?: string;
  /** How the line of a node or an edge is drawn. */
  dash?: 'dashed' | 'dotted';
  /** The width of that line. */
  width?: number;
  /** How many outlines a node has, one within the other, from 1 to 4. */
  outlines?: number;
  /** The size of a label's letters, from 1 to 1000, if there is room for them. */
  fontSize?: number;
  /** At which ends of an edge arrow heads stand; without it, at the target. */
  arrows?: 'tail' | 'both';
}

/**
 * Draws a placed graph: shapes, ports, labels, routes with arrow heads and rounded bends, nesting by shade.
 * An edge with `directed: false` has no arrow head.
 * @param placed a graph with places, as `ELK.layout` resolves to, or as any other program writes it
 * @returns an SVG document
 */
export function toSvg(placed: object, look?: Look): string;
