// Nodes with an application's own members, which the result has too.
import ELK, { ElkExtendedEdge, ElkNode, LayoutOptions } from 'elkjs';

interface Task extends ElkNode {
  title: string;
  children?: Task[];
}

interface Wire extends ElkExtendedEdge {
  colour: string;
}

interface Board extends ElkNode {
  owner: string;
  children: Task[];
  edges: Wire[];
}

const options = (direction: 'RIGHT' | 'DOWN'): LayoutOptions => ({ 'elk.direction': direction });

export async function arrange(board: Board): Promise<string[]> {
  const elk = new ELK();
  const placed = await elk.layout(board, { layoutOptions: options('RIGHT'), logging: true, measureExecutionTime: true });
  const titles = (placed.children ?? []).map((task) => `${task.title} at ${task.x}, ${task.y}`);
  return [placed.owner, ...titles];
}

export async function same<T extends ElkNode>(graph: T): Promise<ElkNode> {
  const result: ElkNode = await new ELK().layout(graph);
  return result;
}
