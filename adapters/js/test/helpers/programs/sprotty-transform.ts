// sprotty-elk: a model becomes a graph, with primitive edges and labels.
import {
  ELK,
  ElkEdge,
  ElkExtendedEdge,
  ElkGraphElement,
  ElkLabel,
  ElkNode,
  ElkPort,
  ElkPrimitiveEdge,
  ElkShape,
  LayoutOptions,
} from 'elkjs/lib/elk-api';

export interface SModelElement { type: string; id: string; children?: SModelElement[] }
interface SShape extends SModelElement { position?: { x: number; y: number }; size?: { width: number; height: number } }
interface SEdge extends SModelElement { sourceId: string; targetId: string; routingPoints?: { x: number; y: number }[] }
interface SLabel extends SShape { text: string }

export type ElkFactory = () => ELK;

export class ElkLayoutEngine {
  protected readonly elk: ELK;

  constructor(elkFactory: ElkFactory, protected readonly options: (element: SModelElement) => LayoutOptions | undefined) {
    this.elk = elkFactory();
  }

  layout(root: SModelElement): Promise<ElkNode> {
    return this.elk.layout(this.transformGraph(root));
  }

  protected transformGraph(sgraph: SModelElement): ElkNode {
    const elkGraph: ElkNode = { id: sgraph.id, layoutOptions: this.options(sgraph) };
    this.transformChildren(elkGraph, sgraph);
    return elkGraph;
  }

  protected transformChildren(elkNode: ElkNode, element: SModelElement): void {
    const children = element.children ?? [];
    elkNode.children = children.filter((c) => c.type === 'node').map((c) => this.transformNode(c)) as ElkNode[];
    elkNode.edges = children.filter((c) => c.type === 'edge').map((c) => this.transformEdge(c as SEdge)) as ElkEdge[] as ElkExtendedEdge[];
  }

  protected transformNode(snode: SShape): ElkNode {
    const elkNode: ElkNode = { id: snode.id, layoutOptions: this.options(snode) };
    this.transformChildren(elkNode, snode);
    elkNode.labels = (snode.children ?? []).filter((c) => c.type === 'label').map((c) => this.transformLabel(c as SLabel)) as ElkLabel[];
    elkNode.ports = (snode.children ?? []).filter((c) => c.type === 'port').map((c) => this.transformPort(c));
    this.transformShape(elkNode, snode);
    return elkNode;
  }

  protected transformShape(elkShape: ElkShape, sshape: SShape): void {
    if (sshape.position) {
      elkShape.x = sshape.position.x;
      elkShape.y = sshape.position.y;
    }
    if (sshape.size) {
      elkShape.width = sshape.size.width;
      elkShape.height = sshape.size.height;
    }
  }

  protected transformPort(sport: SShape): ElkPort {
    const elkPort: ElkPort = { id: sport.id, layoutOptions: this.options(sport) };
    this.transformShape(elkPort, sport);
    return elkPort;
  }

  protected transformLabel(slabel: SLabel): ElkLabel {
    const elkLabel: ElkLabel = { id: slabel.id, text: slabel.text, layoutOptions: this.options(slabel) };
    this.transformShape(elkLabel, slabel);
    return elkLabel;
  }

  protected transformEdge(sedge: SEdge): ElkPrimitiveEdge {
    const elkEdge: ElkPrimitiveEdge = { id: sedge.id, source: sedge.sourceId, target: sedge.targetId, layoutOptions: this.options(sedge) };
    const points = sedge.routingPoints;
    if (points && points.length >= 2) {
      elkEdge.sourcePoint = points[0];
      elkEdge.bendPoints = points.slice(1, points.length - 1);
      elkEdge.targetPoint = points[points.length - 1];
    }
    return elkEdge;
  }

  protected idOf(element: ElkGraphElement): string | undefined {
    return element.id;
  }
}
