'use strict';
// The playground: a text on one side, its drawing on the other.

const { Desk } = require('./desk');
const { newWorker } = require('./workers');

const desk = new Desk(newWorker);

// The worker gets ready while the rest of the page is loaded.
desk.prepare();

const { Board } = require('./board');
const { hearBorder } = require('./border');
const { Controls } = require('./controls');
const { Drawer } = require('./drawer');
const { hearDrops } = require('./drops');
const { Editor } = require('./editor');
const { elementAt } = require('./element-at');
const { formOf } = require('./forms');
const { Gallery } = require('./gallery');
const { keepText, keptText } = require('./kept');
const { largeText } = require('./large');
const { Links } = require('./links');
const { Saves } = require('./saves');
const { Search } = require('./search');
const { Themes } = require('./themes');
const { Told } = require('./told');
const { Tour } = require('./tour');
const { View } = require('./view');
const { Writing } = require('./writing');

// A change is drawn at once. Those that follow sooner than this, in milliseconds, are drawn together when the keys rest.
const REST = 20;

const EXAMPLES = JSON.parse(require('examples-text'));

const LARGE = { id: 'large', title: 'A graph of 2,000 nodes', nodes: 2000 };

const find = (id) => document.getElementById(id);

// The page's own style comes after that of the editor.
const style = document.createElement('style');
style.textContent = require('editor-style');
document.head.prepend(style);

let [pause, lastChange] = [undefined, -Infinity];

/** Leads to the text of an element of the drawing. */
function seek({ kind, id }) {
  const place = drawer.places.find((it) => it.kind === kind && it.id === id);
  if (place) {
    editor.goTo(place);
  }
}

const view = new View(find('stage'), find('picture'), {
  onLit: (words) => {
    find('lit').textContent = words;
  },
  onChoice: seek,
});

const idsOfNodes = () => drawer.lastPlaces.slice(1).filter(({ kind }) => kind === 'node').map(({ id }) => id);

const editor = new Editor(find('editor'), {
  label: 'Graph, as JSON, DOT or lines',
  onChange: changed,
  onCaret: pointed,
  complete: (isAsked) => writing.complete(isAsked, idsOfNodes),
});

const told = new Told(find('told'), {
  onPlace: (place) => editor.goTo(place),
  onMend: (mend) => {
    editor.mend(mend);
    editor.focus();
    draw();
  },
});

const board = new Board(find, told, editor);

const controls = new Controls(find('choices'), (name, value) => writing.writeOption(name, value));

const writing = new Writing(find, editor, controls);

// The view shows the picture in the theme of the page.
const lookOfPage = () => ({ arrows: find('arrows').checked, theme: 'auto' });

const drawer = new Drawer(desk, newWorker, {
  ...{ find, board, view, look: lookOfPage },
  asked: () => ({ text: writing.text, form: writing.form, isPlaced: writing.isPlaced }),
  onPlaces: (chosen) => {
    if (chosen) {
      controls.show(chosen);
    }
    pointed();
  },
});

const themes = new Themes(find('theme'), (isDark) => {
  view.isDark = isDark;
});

const themeOfPage = () => (themes.isDark ? 'dark' : 'light');

const saves = new Saves(drawer, () => ({ ...lookOfPage(), theme: themeOfPage() }), (words) => board.say(words));

const links = new Links(desk);

let sketches;

const gallery = new Gallery(find('gallery'), find('cards'), {
  examples: [...EXAMPLES, LARGE],
  withoutPicture: 'open it to see',
  onChoice: ({ text = largeText(LARGE.nodes), isPlaced }) => open({ text, isPlaced }),
  // Drawn beside what goes on with the text.
  sketch: async ({ text, isPlaced }, theme) => {
    sketches ??= new Desk(newWorker);
    const { svg } = await sketches.ask({ kind: 'sketch', text, form: formOf(text), isPlaced, look: { arrows: true, theme } });
    return svg;
  },
});

const tour = new Tour(
  {
    ...{ tour: find('tour'), count: find('tour-count'), title: find('tour-title'), words: find('tour-words') },
    ...{ back: find('tour-back'), next: find('tour-next'), close: find('tour-close') },
  },
  (text) => open({ text }),
);

new Search(find('sought'), () => drawer.places, (node, words) => {
  find('found').textContent = words;
  if (node) {
    view.reveal(node);
  }
});

/** Tells of the option at the caret, and marks the element of the drawing in whose text the caret stands. */
function pointed() {
  find('help').textContent = writing.help;
  if (drawer.drawing) {
    view.point(editor.hasFocus ? elementAt(drawer.places, editor.caret) : undefined);
  }
}

function changed(isUndone) {
  writing.changed(isUndone);
  drawer.outdate();
  board.age();
  links.forget();
  const now = performance.now();
  clearTimeout(pause);
  pause = setTimeout(draw, now - lastChange < REST ? REST : 0);
  lastChange = now;
}

function draw() {
  clearTimeout(pause);
  drawer.draw();
}

/** What is done with the text has changed, and not the text. */
function drawAnew() {
  drawer.outdate();
  board.forget();
  draw();
}

/** Puts another document in the place of the text. */
function open(given, how) {
  drawer.clear();
  writing.put(given, how);
  board.forget();
  draw();
}

async function openFile(file) {
  open({ text: await file.text() });
}

function format() {
  if (writing.format()) {
    draw();
  } else {
    board.say('Only a document of JSON is formatted: mend its faults first.');
  }
}

async function copyLink() {
  try {
    const isCopied = await links.copy({ text: writing.text, isPlaced: writing.isPlaced });
    find('link').focus();
    board.sayLink(isCopied);
  } catch ({ message }) {
    board.say(`There is no link: ${message}.`);
  }
}

const brokenLink = (message) => `The link carries no document that can be read: ${message}`;

async function readLink() {
  try {
    const given = await links.read();
    if (given) {
      open(given);
    }
  } catch ({ message }) {
    board.say(`${brokenLink(message)}.`);
  }
}

async function openGallery() {
  await gallery.open(themeOfPage());
  sketches?.end();
}

function stop() {
  drawer.stop();
  editor.focus();
}

const CLICKS = {
  ...{ examples: openGallery, newcomers: () => tour.begin(), leave: () => find('gallery').close() },
  ...{ format, stop, link: copyLink, fit: () => view.fit(), in: () => view.zoom(1.25), out: () => view.zoom(0.8) },
  ...{ svg: () => saves.save('svg'), png: () => saves.save('png'), json: () => saves.save('json'), copy: () => saves.copy() },
};

function hearControls() {
  Object.entries(CLICKS).forEach(([id, act]) => find(id).addEventListener('click', act));
  find('way').addEventListener('change', ({ target }) => {
    writing.chooseWay(target.value);
    drawAnew();
  });
  find('form').addEventListener('change', ({ target }) => {
    writing.chooseForm(target.value);
    drawAnew();
  });
  find('file').addEventListener('change', async ({ target }) => {
    await openFile(target.files[0]);
    target.value = '';
  });
  find('arrows').addEventListener('change', () => drawer.redraw());
  window.addEventListener('hashchange', readLink);
  window.addEventListener('pagehide', () => keepText({ text: writing.text, isPlaced: writing.isPlaced }));
  window.addEventListener('beforeprint', () => view.showWhole(true));
  window.addEventListener('afterprint', () => view.showWhole(false));
}

/** What the page begins with: the document of its link, else the last one that was here, else the first example. */
async function begin() {
  const kept = keptText();
  try {
    const given = location.hash === '' ? undefined : await links.read();
    if (given) {
      editor.begin(kept?.text ?? '');
      open(given);
    } else {
      open(kept ?? EXAMPLES[0], { isFirst: true });
    }
  } catch ({ message }) {
    editor.begin('');
    board.tell([{ kind: 'fault', message: brokenLink(message) }]);
    board.hint('The link is broken. Choose an example, or type, paste or drop a document.');
    board.say(`${brokenLink(message)}.`);
  }
}

function start() {
  hearControls();
  hearDrops(find('editor'), { onFile: openFile, onText: (text) => open({ text }) });
  hearBorder(find('border'), find('panes'));
  drawer.enable();
  return begin();
}

start();
