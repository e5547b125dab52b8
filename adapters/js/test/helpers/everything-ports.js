'use strict';
// Ports of documents that are drawn at random: at free sides, at fixed ones, in a fixed order, or at fixed places.

const { labelFor } = require('./everything-labels');
const { SIDES, isUpright, num } = require('./scene');

const RULES = ['FREE', 'FREE', 'FIXED_SIDE', 'FIXED_SIDE', 'FIXED_ORDER', 'FIXED_ORDER', 'FIXED_POS', 'FIXED_POS', 'UNDEFINED'];

/** Gives a node ports, under a rule for them. */
function portsFor(maker, node) {
  const { draw } = maker;
  const rule = draw.is(0.95) ? draw.of(RULES) : undefined;
  const areLabelled = draw.is(maker.how.labels * 0.7);
  const placement = areLabelled ? draw.of([undefined, 'OUTSIDE', 'INSIDE', 'INSIDE', draw.of(['FIXED', 'OUTSIDE'])]) : undefined;
  const cursors = Object.fromEntries(SIDES.map((side) => [side, draw.from(0, 12)]));
  const all = Array.from({ length: draw.from(1, 5) }, () => portFor(maker, rule, areLabelled));
  node.ports = rule === 'FIXED_POS' ? all.filter((port) => pin(maker, node, port, cursors)) : all.map(({ port }) => port);
  node.ports = node.ports.map((it) => it.port ?? it);
  node.layoutOptions = { ...node.layoutOptions, ...maker.options({ portConstraints: rule, 'portLabels.placement': placement }) };
}

function portFor(maker, rule, areLabelled) {
  const { draw } = maker;
  const side = draw.of(SIDES);
  const isSided = rule === 'FIXED_SIDE' || rule === 'FIXED_ORDER' ? draw.is(0.95) : draw.is(0.3);
  const index = rule === 'FIXED_ORDER' && draw.is(0.7) ? draw.below(6) - 1 : undefined;
  const size = () => draw.of([0, maker.length(1, 12), maker.length(1, 12)]);
  const port = { id: maker.id('p'), width: size(), height: size() };
  if (areLabelled && draw.is(0.8)) {
    port.labels = Array.from({ length: draw.of([1, 1, 1, 2]) }, () => labelFor(maker));
  }
  const options = maker.options({ 'port.side': isSided ? side : undefined, 'port.index': index });
  return { side, port: { ...port, ...(Object.keys(options).length > 0 && { layoutOptions: options }) } };
}

/** Gives a port its place at a side; false where that has no room for it. */
function pin(maker, node, { side, port }, cursors) {
  const { draw } = maker;
  const upright = isUpright(side);
  const [size, depth] = upright ? [port.height, port.width] : [port.width, port.height];
  const [room, far] = [num(upright ? node.height : node.width), num(upright ? node.width : node.height)];
  const along = cursors[side];
  cursors[side] += size + draw.from(1, draw.of([4, 40]));
  if (!node.children && along + size > room) {
    return false;
  }
  const away = node.children ? 0 : draw.of([0, 0, 0, -depth / 2, draw.from(1, 6), -depth - draw.from(1, 20)]);
  const isDeep = away < -depth;
  // A port within its node asks for a side, since several may be as near; it lies less than a quarter of the node deep.
  const out = isDeep && (-away - depth) * 4 >= Math.floor(far) - 4 ? 0 : away;
  const [start, end] = [-depth - out, far + out];
  const place = { NORTH: { x: along, y: start }, EAST: { x: end, y: along }, SOUTH: { x: along, y: end }, WEST: { x: start, y: along } };
  Object.assign(port, place[side]);
  port.layoutOptions = { ...port.layoutOptions, ...maker.options({ 'port.side': side }) };
  return true;
}

module.exports = { portsFor };
