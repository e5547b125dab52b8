// Options made from a form, read again, and joined.
import type { ElkGraphElement, ElkNode, LayoutOptions } from 'elkjs';

interface Form { direction: 'RIGHT' | 'DOWN'; gap: number; isSplit: boolean }

export const toOptions = ({ direction, gap, isSplit }: Form): LayoutOptions => ({
  'elk.direction': direction,
  'elk.spacing.nodeNode': String(gap),
  'elk.separateConnectedComponents': `${isSplit}`,
});

export function gapOf(options: LayoutOptions): number {
  const text: string = options['elk.spacing.nodeNode'];
  return parseInt(text.trim(), 10);
}

export function withOptions<E extends ElkGraphElement>(element: E, options: LayoutOptions): E {
  return { ...element, layoutOptions: { ...element.layoutOptions, ...options } };
}

export const keys = (node: ElkNode): string[] => Object.entries(node.layoutOptions ?? {}).map(([key, value]) => `${key}=${value.toUpperCase()}`);
