#!/usr/bin/env node
'use strict';
// How long the playground takes, in Chromium: from opening to the first drawing, and from a change of a node's width to
// the new drawing, with the longest time for which the page was at work without a pause.
//   test/helpers/playground-times.js [FILE]    the page, else the one that these sources make

const { mkdtempSync, rmSync, writeFileSync } = require('node:fs');
const { tmpdir } = require('node:os');
const path = require('node:path');
const { setTimeout: rest } = require('node:timers/promises');
const { pathToFileURL } = require('node:url');
const { playground } = require('../../pack/playground');
const { largeText } = require('../../playground/large');
const { Browser } = require('./browser');

const TIMES = 7;

const PICTURE = `document.getElementById('picture').shadowRoot`;

const MIRROR = `document.querySelector('.CodeMirror').CodeMirror`;

const median = (numbers) => Math.round([...numbers].sort((one, other) => one - other)[numbers.length >> 1]);

// When the page first shows a drawing, in milliseconds after it was opened.
const FIRST = `addEventListener('DOMContentLoaded', () => {
  const seen = () => (${PICTURE}?.querySelector('svg') ? window.firstDrawn = performance.now() : requestAnimationFrame(seen));
  seen();
});`;

/** Changes the width of the first node, and tells how long the whole drawing took, and the longest stop until all is done. */
const change = (digit, nodes) => `new Promise((done) => {
  const former = ${PICTURE}.querySelector('svg');
  let [most, last, drawn] = [0, performance.now(), undefined];
  const since = last;
  const { port1, port2 } = new MessageChannel();
  port1.onmessage = () => {
    const now = performance.now();
    [most, last] = [Math.max(most, now - last), now];
    if (drawn && now - drawn > 1000) {
      done([drawn - since, most]);
    } else {
      port2.postMessage(0);
    }
  };
  port2.postMessage(0);
  const at = ${MIRROR}.posFromIndex(${MIRROR}.getValue().indexOf('"width":') + 9);
  ${MIRROR}.replaceRange('${digit}', at, { line: at.line, ch: at.ch + 1 }, '+input');
  const seen = () => {
    const svg = ${PICTURE}.querySelector('svg');
    // The texts of the nodes come last.
    if (svg === former || svg.querySelectorAll('text').length < ${nodes}) {
      requestAnimationFrame(seen);
    } else {
      setTimeout(() => {
        drawn = performance.now();
      });
    }
  };
  seen();
})`;

async function until(page, expression) {
  for (;;) {
    const value = await page.evaluate(expression);
    if (value) {
      return value;
    }
    await rest(20);
  }
}

async function firstDrawing(page, url) {
  const times = [];
  for (let run = 0; run < TIMES; run += 1) {
    await page.open('about:blank');
    await page.open(url);
    times.push(await until(page, 'window.firstDrawn'));
  }
  return median(times);
}

async function changes(page, nodes) {
  const count = `${nodes.toLocaleString('en')} nodes`;
  await page.evaluate(`${MIRROR}.setValue(${JSON.stringify(largeText(nodes))})`);
  await until(page, `document.getElementById('status').innerText.startsWith('${count}')`);
  const told = [];
  for (let run = 1; run <= TIMES; run += 1) {
    told.push(await page.evaluate(change(run, nodes)));
  }
  const [drawn, stop] = [0, 1].map((at) => median(told.map((it) => it[at])));
  return `${count}: ${drawn} ms from a key to the drawing, longest stop ${stop} ms`;
}

async function main(file) {
  const room = mkdtempSync(path.join(tmpdir(), 'elk-playground-'));
  const own = path.join(room, 'playground.html');
  const browser = new Browser();
  try {
    writeFileSync(own, playground());
    const page = await browser.open('about:blank', { width: 1280, height: 800 });
    await page.send('Page.addScriptToEvaluateOnNewDocument', { source: FIRST });
    const first = await firstDrawing(page, pathToFileURL(file ? path.resolve(file) : own).href);
    process.stdout.write(`first drawing ${first} ms after opening\n`);
    for (const nodes of [300, 2000]) {
      process.stdout.write(`${await changes(page, nodes)}\n`);
    }
  } finally {
    await browser.close();
    rmSync(room, { recursive: true, force: true });
  }
}

main(process.argv[2]);
