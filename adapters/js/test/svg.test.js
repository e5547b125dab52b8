'use strict';

const assert = require('node:assert/strict');
const { spawnSync } = require('node:child_process');
const { existsSync, readdirSync, readFileSync } = require('node:fs');
const path = require('node:path');
const test = require('node:test');
const { toSvg } = require('../src/svg');
const { run, TOP, WITH_PROGRAM } = require('./helpers/program');
const { elementsOfXml } = require('./helpers/xml');

const HOSTILE = [
  '<script>alert(1)</script>',
  '"/><svg onload=alert(1)>',
  "'&amp;&#0;]]>",
  '<![CDATA[',
  '--><!--',
  'tab\t line\n\r feed',
  '\u0000\u0007\u001b\ufffe\uffff',
  '😀 é ‮ text',
  '$& $1 `',
  '__proto__',
  ' ',
  '',
  0,
  -1,
  'x'.repeat(5000),
];

const names = (svg) => elementsOfXml(svg).map(({ name }) => name);

const texts = (svg) => elementsOfXml(svg).filter(({ name }) => name === 'text').map(({ content }) => content);

/** A placed document all of whose ids, texts and wishes are one. */
function documentWith(id) {
  const style = { shape: id, fill: id, stroke: id, color: id, class: id };
  const point = { x: 30, y: 10 };
  const route = { startPoint: point, bendPoints: [{ x: 30, y: 40 }], endPoint: { x: 60, y: 40 } };
  const box = { id, style, x: 10, y: 10, width: 40, height: 20, labels: [{ text: id }, { text: id, x: 1, y: 1 }] };
  return {
    id,
    width: 120,
    height: 60,
    labels: [{ text: id }],
    children: [
      { ...box, ports: [{ id, x: 40, y: 5, width: 5, height: 5, labels: [{ text: id }] }] },
      { ...box, x: 70, children: [{ ...box, width: 10 }] },
    ],
    edges: [{ id, style, sources: [id], targets: [id], sections: [route], junctionPoints: [point] }],
  };
}

test('pictures with hostile ids and texts are well-formed and of known elements', () => {
  const known = new Set(['svg', 'rect', 'g', 'title', 'path', 'circle', 'text', 'style']);
  for (const id of HOSTILE) {
    const svg = toSvg(documentWith(id));
    const found = names(svg);
    assert.deepEqual(found.filter((name) => !known.has(name)), [], JSON.stringify(id));
    // A text of several lines has an element for each.
    const once = (all) => all.filter((name, at) => name !== 'text' || all[at - 1] !== 'text');
    const all = names(toSvg(documentWith('plain')));
    assert.deepEqual(once(found), id === '' ? all.filter((name) => name !== 'text') : once(all));
    const attributes = elementsOfXml(svg).map(({ attributes: it }) => it.replace(/ data-id="[^"]*"/, '')).join('\n');
    assert.doesNotMatch(attributes, /script|onload|alert|proto|CDATA/);
  }
});

test('a text with half of a surrogate pair is reported', () => {
  assert.throws(() => toSvg(documentWith('\ud800 alone')), { name: 'ProgramError', message: /half of a surrogate pair/ });
});

test('the check for well-formed text refuses what is not', () => {
  const words = ['<a>&nbsp;</a>', '<a>&</a>', '<a>\u0000</a>', ''];
  for (const bad of ['<a><b></a></b>', '<a', '<a x="1" x="2"/>', '<a/><b/>', '<a x=1/>', ...words]) {
    assert.throws(() => elementsOfXml(bad), bad);
  }
});

test('values of the wrong kind make a picture too', () => {
  const mute = { toString: 5, valueOf: 5 };
  const point = { x: mute, y: '<' };
  const section = { startPoint: point, bendPoints: [null, point, 7], endPoint: point };
  const edges = [{}, null, 7, { id: 1, sections: [{}] }, { id: mute, sections: 7 }, { sources: [mute], sections: [section] }];
  const children = [null, 5, { x: NaN, width: '1', labels: [null, { text: mute }, { text: 1, x: 1, y: mute }] }];
  const odd = { id: mute, width: '"><b', height: null, children, ports: {}, labels: 7 };
  for (const placed of [odd, { ...odd, edges }, { ...odd, edges, ports: [mute, { id: mute, labels: [mute] }] }, {}]) {
    elementsOfXml(toSvg(placed));
  }
});

test('bends are rounded, arrows point at targets, and dots mark junctions', () => {
  const route = { startPoint: { x: 0, y: 0 }, bendPoints: [{ x: 20, y: 0 }, { x: 20, y: 40 }], endPoint: { x: 50, y: 40 } };
  const ends = { sources: ['a'], targets: ['b'] };
  const placed = {
    width: 100,
    height: 50,
    children: [{ id: 'a' }, { id: 'b' }],
    edges: [{ id: 'e', ...ends, sections: [route] }],
  };
  const svg = toSvg(placed);
  assert.match(svg, /<path d="M0 0L14 0Q20 0 20 6L20 34Q20 40 26 40L43 40"\/>/);
  assert.match(svg, /<path d="M50 40L42 36.5L42 43.5Z" fill="#\w+" stroke="none"\/>/);
  assert.doesNotMatch(svg, /<circle/);
  assert.doesNotMatch(toSvg(placed, { arrows: false }), /Z"/);
  placed.edges[0].junctionPoints = [{ x: 20, y: 0 }];
  const dotted = toSvg(placed);
  assert.match(dotted, /<circle cx="20" cy="0"/);
  assert.match(dotted, /d="M0 0L20 0L20 34Q/);
});

test('a route is drawn where its level stands', () => {
  const section = { startPoint: { x: 1, y: 2 }, endPoint: { x: 31, y: 2 } };
  const edge = { id: 'e', sources: ['c'], targets: ['d'], sections: [section] };
  const box = { id: 'b', x: 100, y: 200, width: 60, height: 60, children: [{ id: 'c' }, { id: 'd' }] };
  // The edge is declared at the root, and its ends are children of the box.
  for (const root of [{ id: 'r' }, {}]) {
    const svg = toSvg({ ...root, width: 300, height: 300, children: [box], edges: [edge] });
    assert.match(svg, /d="M101 202L124 202"/);
  }
});

test('labels stand for ids, are fitted to their node, and keep a place that is given', () => {
  const label = { text: 'a label that is much too long for its node' };
  const svg = toSvg({
    id: 'root',
    width: 400,
    height: 100,
    children: [
      { id: 'plain', width: 100, height: 20 },
      { id: 'cut', width: 60, height: 20, labels: [label] },
      { id: 'placed', width: 90, height: 40, x: 200, labels: [{ text: 'here', x: 10, y: 4, width: 30, height: 12 }] },
    ],
  });
  assert.deepEqual(texts(svg), ['plain', 'a label that i…', 'here']);
  assert.match(svg, /<text x="225" y="14.2" [^>]*>here</);
});

/** The texts of a picture of one node, and the size of their letters. */
function textsIn(node) {
  const drawn = elementsOfXml(toSvg({ width: 300, height: 200, children: [node] })).filter(({ name }) => name === 'text');
  return drawn.map(({ attributes, content }) => [content, Number(/font-size="([^"]+)"/.exec(attributes)[1])]);
}

test('texts fit their room in width and height, several lines and wide letters too', () => {
  const label = (text, size) => ({ labels: [{ text, x: 1, y: 1, ...size }] });
  for (const [what, node, expected] of [
    ['lines', { id: 'n', width: 90, height: 40, labels: [{ text: 'one\ntwo\r\nthree' }] }, [['one', 10.29], ['two', 10.29], ['three', 10.29]]],
    ['an empty line', { id: 'n', width: 90, height: 60, labels: [{ text: 'one\n\nthree' }] }, [['one', 12], ['three', 12]]],
    ['more lines than fit', { id: 'n', width: 90, height: 20, labels: [{ text: 'one\ntwo\nthree' }] }, [['one', 7], ['two…', 7]]],
    ['wide letters', { id: 'n', width: 68, height: 20, labels: [{ text: '漢字漢字漢字' }] }, [['漢字漢字漢字', 10]]],
    ['wide letters cut', { id: 'n', width: 36, height: 20, labels: [{ text: '漢字漢字漢字' }] }, [['漢字漢…', 7]]],
    ['a low label', { id: 'n', width: 90, height: 40, ...label('low', { width: 60, height: 8 }) }, [['low', 8]]],
    ['a label that nothing has placed', { id: 'n', width: 90, height: 40, ...label('low', { x: 0, y: 0, width: 60, height: 8 }) }, [['low', 12]]],
    ['a label without a size', { id: 'n', width: 90, height: 40, ...label('any length that it likes to have', {}) }, [['any length that it likes to have', 12]]],
    ['a diamond', { id: 'n', width: 50, height: 30, style: { shape: 'diamond' }, labels: [{ text: 'within' }] }, [['wi…', 7]]],
  ]) {
    assert.deepEqual(textsIn(node), expected, what);
  }
});

test('the title of a group stands in the room above its content', () => {
  const child = (y) => ({ id: 'c', x: 12, y, width: 30, height: 20, labels: [{ text: 'c', x: 0, y: 5 }] });
  for (const [y, more, expected] of [
    [40, {}, [['group', 12]]],
    [20, {}, [['group', 12]]],
    [12, {}, [['group', 8]]],
    [11, {}, []],
    [11, { labels: [{ text: 'told' }] }, [['told', 7.2]]],
    // A route above the children narrows the room.
    [40, { edges: [{ id: 'e', sources: ['c'], targets: ['c'], sections: [{ startPoint: { x: 12, y: 50 }, bendPoints: [{ x: 4, y: 50 }, { x: 4, y: 12 }, { x: 20, y: 12 }], endPoint: { x: 20, y: 40 } }] }] }, [['group', 8]]],
  ]) {
    const group = { id: 'group', x: 12, y: 12, width: 100, height: 80, children: [child(y)], ...more };
    const found = textsIn(group).filter(([text]) => text !== 'c');
    assert.deepEqual(found, expected, `${y} ${JSON.stringify(more)}`);
  }
});

/** The picture of one edge from a node at the left to one at the right. */
function joined({ from = {}, to = {}, edge = {}, look }) {
  const section = { startPoint: { x: 40, y: 20 }, endPoint: { x: 100, y: 20 } };
  const placed = {
    width: 140,
    height: 40,
    children: [{ id: 'a', width: 40, height: 40, ...from }, { id: 'b', x: 100, width: 40, height: 40, ...to }],
    edges: [{ id: 'e', sources: ['a'], targets: ['b'], sections: [section], ...edge }],
  };
  return toSvg(placed, look);
}

test('edges without a direction have no heads', () => {
  assert.match(joined({}), /Z" fill="#33475b" stroke="none"/);
  const plain = joined({ edge: { directed: false } });
  assert.doesNotMatch(plain, /Z"/);
  assert.match(plain, /<title>e: a — b<\/title><path d="M40 20L100 20"\/>/);
});

test('a head is no longer than the last piece of its line', () => {
  for (const [last, length] of [[20, 8], [6, 6], [4, 4], [1, 4]]) {
    const section = { startPoint: { x: 0, y: 0 }, bendPoints: [{ x: 20, y: 0 }], endPoint: { x: 20, y: last } };
    const svg = joined({ edge: { sections: [section] } });
    assert.match(svg, new RegExp(`<path d="M20 ${last}L[\\d.]+ ${last - length}L[\\d.]+ ${last - length}Z"`), `${last}`);
  }
  const short = { startPoint: { x: 40, y: 20 }, endPoint: { x: 45, y: 20 } };
  assert.match(joined({ edge: { sections: [short] } }), /<path d="M45 20L40 17.81L40 22.19Z"/);
});

test('lines are drawn on to the shapes of their nodes', () => {
  const section = { startPoint: { x: 40, y: 30 }, endPoint: { x: 100, y: 30 } };
  for (const [shape, drawn, start, tip] of [
    ['box', '<rect x="0"', 40, 100],
    ['round', '<rect x="0"', 37.32, 102.68],
    ['ellipse', '<ellipse cx="20" cy="20" rx="20" ry="20"', 37.32, 102.68],
    ['circle', '<ellipse cx="20"', 37.32, 102.68],
    ['diamond', '<path d="M20 0L40 20L20 40L0 20Z"', 30, 110],
    ['__proto__', '<rect x="0"', 40, 100],
  ]) {
    const style = { style: { shape } };
    const svg = joined({ from: style, to: style, edge: { sections: [section] } });
    assert.ok(svg.includes(drawn), shape);
    assert.ok(svg.includes(`<path d="M${start} 30L${Number((tip - 7).toFixed(2))} 30"/><path d="M${tip} 30L`), `${shape}: ${svg}`);
  }
});

test('a document asks for colours and classes, and for nothing else', () => {
  const ink = (fill) => /fill="(#\w+)">a</.exec(joined({ from: { style: { fill } } }))?.[1];
  assert.deepEqual(['#fff', '#ffe066', 'navy', '#000000', 'yellow', 'none', undefined].map(ink),
    ['#33475B', '#33475B', '#D5DEE8', '#D5DEE8', '#33475B', undefined, undefined]);
  const svg = joined({
    from: { style: { fill: '#abc', stroke: 'crimson', color: 'rgb(1, 2, 3)', class: 'alarm  hot-1 2nd x"y elk:z' } },
    edge: { style: { stroke: 'hsl(120 50% 40% / 0.5)', class: 'slow' }, labels: [{ text: 'over', x: 60, y: 15, width: 20, height: 10 }] },
  });
  assert.match(svg, /class="node alarm hot-1" data-id="a" fill="#ABC" stroke="crimson"/);
  assert.match(svg, /fill="rgb\(1, 2, 3\)">a</);
  assert.match(svg, /<g class="edge slow" data-id="e" stroke="hsl\(120 50% 40% \/ 0.5\)"/);
  // The line passes through the label, which stands out by the colour of the paper.
  assert.match(svg, /paint-order="stroke"><text [^>]*>over</);
  const inGroup = { id: 'g', width: 140, height: 40, style: { fill: '#102030' }, children: [{ id: 'a' }, { id: 'b', x: 90 }] };
  inGroup.edges = [{ id: 'e', sources: ['a'], targets: ['b'], sections: [{ startPoint: { x: 0, y: 9 }, endPoint: { x: 90, y: 9 } }] }];
  assert.match(toSvg({ children: [inGroup] }), /<g class="edge" data-id="e" stroke="#D5DEE8">.*fill="#D5DEE8" stroke="none"/);
  for (const fill of ['url(#a)', 'red;x', '"', 'var(--x)', '#12', '#12345', 'rgb(1,2,3', 7, null, {}]) {
    assert.doesNotMatch(joined({ from: { style: { fill, stroke: fill } } }), /url|;x|var|#12"|12345|rgb/, String(fill));
  }
});

// The inks of groups, which a picture of two boxes without a group does not use.
const OTHER_INKS = ['#7b8ea3', '#8b9bad', '#4a5d72', '#bcc8d4'];

/** The red, green and blue of a colour of six digits, from 0 to 1. */
const channelsOf = (colour) => [1, 3, 5].map((from) => Number.parseInt(colour.slice(from, from + 2), 16) / 255);

/** The contrast of two colours, given by their channels, as WCAG 2 defines it. */
function contrast(...colours) {
  const light = (step) => (step <= 0.04045 ? step / 12.92 : ((step + 0.055) / 1.055) ** 2.4);
  const [high, low] = colours
    .map((channels) => channels.map(light))
    .map(([red, green, blue]) => 0.2126 * red + 0.7152 * green + 0.0722 * blue)
    .sort((one, other) => other - one);
  return (high + 0.05) / (low + 0.05);
}

const mixed = (below, above, share) => below.map((step, k) => step * (1 - share) + above[k] * share);

test('the title of a group can be read at every depth, on light and on dark pages', () => {
  const group = (depth) => ({
    id: `g${depth}`, y: 20, width: 200, height: 200, children: [depth < 12 ? group(depth + 1) : { id: 'leaf', y: 20 }],
  });
  for (const theme of ['light', 'dark']) {
    const elements = elementsOfXml(toSvg({ width: 300, height: 300, children: [group(1)] }, { theme }));
    const valueOf = ({ attributes }, name) => new RegExp(`${name}="([^"]+)"`).exec(attributes)?.[1];
    const [paper] = elements.filter(({ name }) => name === 'rect');
    const titles = elements.filter(({ name, content }) => name === 'text' && /^g\d+$/.test(content));
    assert.equal(titles.length, 12);
    let below = channelsOf(valueOf(paper, 'fill'));
    for (const [depth, level] of elements.filter((it) => /class="node"/.test(it.attributes)).entries()) {
      const opacity = Number(valueOf(level, 'fill-opacity') ?? 0);
      below = opacity === 0 ? below : mixed(below, channelsOf(valueOf(level, 'fill')), opacity);
      const title = titles.find(({ content }) => content === `g${depth}`);
      if (title) {
        assert.ok(contrast(below, channelsOf(valueOf(title, 'fill'))) >= 4.5, `${theme} ${depth}`);
      }
    }
  }
});

test('texts can be read on every fill, and in groups within a group that is filled', () => {
  const inkOf = (svg, text) => new RegExp(`fill="(#\\w+)">${text}<`).exec(svg)[1].replace(/^#(\w)(\w)(\w)$/, '#$1$1$2$2$3$3');
  for (const fill of ['#ff0000', '#008000', '#0000ff', '#ffa500', '#4682b4', '#808080', '#777777', '#767676', '#888888', '#1e3a5f', '#fafafa']) {
    const inner = { id: 'inner', y: 20, width: 90, height: 60, children: [{ id: 'leaf', y: 20, width: 80, height: 30, style: { fill } }] };
    const svg = toSvg({ children: [{ id: 'outer', width: 100, height: 100, style: { fill }, children: [inner] }] });
    assert.ok(contrast(channelsOf(fill), channelsOf(inkOf(svg, 'outer'))) >= 4.5, fill);
    assert.equal(inkOf(svg, 'inner'), inkOf(svg, 'outer'), fill);
    assert.equal(inkOf(svg, 'leaf'), inkOf(svg, 'outer'), fill);
  }
});

test('a bend does not reach into the head behind it', () => {
  for (const [last, drawn] of [
    [30, 'M0 0L14 0Q20 0 20 6L20 23'],
    [12, 'M0 0L16 0Q20 0 20 4L20 5'],
    [9, 'M0 0L19 0Q20 0 20 1L20 2'],
    [8, 'M0 0L20 0L20 1'],
    [3, 'M0 0L20 0L20 0'],
  ]) {
    const section = { startPoint: { x: 0, y: 0 }, bendPoints: [{ x: 20, y: 0 }], endPoint: { x: 20, y: last } };
    assert.ok(joined({ edge: { sections: [section] } }).includes(`<path d="${drawn}"/>`), `${last}`);
  }
});

test('colours are those of light or dark pages, or follow the setting of the reader', () => {
  const [auto, light, dark] = ['auto', 'light', 'dark'].map((theme) => joined({ look: { theme } }));
  assert.equal(auto.replace(/<style>.*<\/style>\n/, ''), light);
  assert.equal(joined({}), auto);
  assert.match(auto, /<style>@media \(prefers-color-scheme:dark\)\{:where\(.elk-picture /);
  const colours = (svg) => new Set(svg.match(/#[0-9a-f]{6}/g));
  assert.ok([...colours(light)].every((it) => !colours(dark).has(it)));
  assert.deepEqual(colours(auto), new Set([...colours(light), ...colours(dark), ...OTHER_INKS]));
  assert.throws(() => joined({ look: { theme: 'blue' } }), { name: 'ProgramError', status: 5 });
});

const command = (words, input) =>
  spawnSync(path.join(TOP, 'adapters', 'js', 'bin', 'elk-svg'), words, { input, encoding: 'utf8' });

test('elk-svg draws a placed graph and reports what it does not take', () => {
  const placed = { id: 'r', width: 10, height: 10 };
  const drawn = command([], JSON.stringify(placed));
  assert.deepEqual([drawn.status, drawn.stdout, drawn.stderr], [0, toSvg(placed), '']);
  assert.equal(command(['--dark'], JSON.stringify(placed)).stdout, toSvg(placed, { theme: 'dark' }));
  for (const [words, input, status, note] of [
    [['--light', '--dark'], '{}', 5, /--dark/],
    [['--no-such'], '{}', 5, /--no-such/],
    [[], '', 2, /the text is empty/],
    [[], '{', 2, /not JSON/],
  ]) {
    const refused = command(words, input);
    assert.deepEqual([refused.status, refused.stdout], [status, '']);
    assert.match(refused.stderr, note);
  }
});

test('the drawings of tests/draw are what toSvg makes', () => {
  const cases = path.join(TOP, 'tests', 'draw');
  for (const name of readdirSync(cases)) {
    const file = (part) => path.join(cases, name, part);
    const words = existsSync(file('args')) ? readFileSync(file('args'), 'utf8').split(/\s+/).filter(Boolean) : [];
    const look = { arrows: !words.includes('--no-arrows'), theme: ['light', 'dark'].find((it) => words.includes(`--${it}`)) };
    const drawn = toSvg(JSON.parse(readFileSync(file('placed.json'), 'utf8')), look);
    elementsOfXml(drawn);
    assert.equal(drawn, readFileSync(file('picture.svg'), 'utf8'), name);
  }
});

for (const [name, words] of [
  ['diagram', []],
  ['circuit', ['--no-arrows']],
]) {
  test(`docs/${name}.svg is what the commands make`, WITH_PROGRAM, () => {
    const placed = run(['layout'], readFileSync(path.join(TOP, 'examples', `${name}.json`)));
    assert.equal(placed.status, 0, placed.stderr);
    const drawn = command(words, placed.stdout).stdout;
    elementsOfXml(drawn);
    const shown = readFileSync(path.join(TOP, 'docs', `${name}.svg`), 'utf8');
    assert.equal(drawn, shown, `elk layout < examples/${name}.json | elk-svg ${words.join(' ')} > docs/${name}.svg`);
  });
}
