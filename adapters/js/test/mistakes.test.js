'use strict';
// Common mistakes and their messages: the table of docs/EDITORS.md.

const assert = require('node:assert/strict');
const { readFileSync } = require('node:fs');
const path = require('node:path');
const test = require('node:test');
const ELK = require('../src/elk');
const { lint } = require('../src/lint');
const { PROGRAM, TOP, WITH_PROGRAM } = require('./helpers/program');

// Each mistake with a graph that has it, or a text that isn't even JSON.
const MISTAKES = JSON.parse(readFileSync(path.join(TOP, 'tests', 'mistakes.json'), 'utf8')).map(({ mistake, graph, text }) => [mistake, text ?? graph]);

const told = (document) => lint(typeof document === 'string' ? document : JSON.stringify(document)).map(({ message }) => message);

test('the page has the message of each mistake', () => {
  const page = readFileSync(path.join(TOP, 'docs', 'EDITORS.md'), 'utf8');
  const [, section] = page.split('| mistake | message |\n|---|---|\n');
  const rows = section.split('\n\n')[0].split('\n').map((line) => line.slice(2, -2));
  assert.deepEqual(rows, MISTAKES.map(([mistake, document]) => `${mistake} | ${told(document)[0]}`));
});

test('each mistake is reported once', () => {
  for (const [mistake, document] of MISTAKES) {
    const messages = told(document);
    // Who misspells a member or an end has the right one missing, too.
    assert.ok(messages.length <= 3 && messages.length > 0, `${mistake}: ${messages.join('; ')}`);
  }
});

test('a call reports the same', WITH_PROGRAM, async () => {
  for (const [mistake, document] of MISTAKES.filter(([, it]) => typeof it !== 'string')) {
    const messages = [];
    const elk = new ELK({ program: PROGRAM, onWarning: ({ message }) => messages.push(message) });
    await elk.layout(document).catch((error) => messages.unshift(...error.faults.map(({ message }) => message)));
    elk.terminateWorker();
    assert.deepEqual(messages, told(document), mistake);
  }
});
