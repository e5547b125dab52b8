'use strict';

const assert = require('node:assert/strict');
const { spawnSync } = require('node:child_process');
const { mkdtempSync, readFileSync, rmSync, writeFileSync } = require('node:fs');
const { tmpdir } = require('node:os');
const path = require('node:path');
const test = require('node:test');
const { lint } = require('../src/lint');
const { TOP } = require('./helpers/program');

const LINT = path.join(TOP, 'adapters', 'js', 'bin', 'elk-lint');

const command = (words, input = '') => spawnSync(LINT, words, { input, encoding: 'utf8' });

// Each text that is no JSON, with the place and the reason.
const NO_JSON = [
  ['', '1:1 the text is empty'],
  ['  \n ', '2:2 the text is empty'],
  ['{"a": [1, 2,]}', '1:12 a comma before ] is not allowed'],
  ['{"a": 1,\n}', '1:8 a comma before } is not allowed'],
  ['{"a": 1\n "b": 2}', '2:2 a comma or } is expected'],
  ['[1 2]', '1:4 a comma or ] is expected'],
  ['{a: 1}', '1:2 the name a needs double quotes'],
  ["{'a': 1}", '1:2 strings need double quotes'],
  ["['a']", '1:2 strings need double quotes'],
  ['{"a" 1}', '1:6 a colon is expected after "a"'],
  ['{,}', '1:2 a name in double quotes is expected'],
  ['[', '1:2 the text ends before a value'],
  ['{"a": [1', '1:9 the text ends before ]'],
  ['{"a":', '1:6 the text ends before a value'],
  ['{"a"', '1:5 the text ends before }'],
  ['["abc', '1:2 the string that begins here has no end'],
  ['[NaN]', '1:2 NaN is not a JSON value'],
  ['[undefined]', '1:2 undefined is not a JSON value'],
  ['[True]', '1:2 True is not a JSON value'],
  ['[;]', '1:2 a value is expected'],
  ['[01]', '1:2 01 is not a JSON number'],
  ['[.5]', '1:2 .5 is not a JSON number'],
  ['[5px]', '1:2 5px is not a JSON number'],
  ['[-]', '1:2 - is not a JSON number'],
  ['[1e999]', '1:2 1e999 is too large for a number'],
  ['{} // end', '1:4 there are no comments in JSON'],
  ['/* */ {}', '1:1 there are no comments in JSON'],
  ['{} {}', '1:4 there is something after the end of the document'],
  ['["a\nb"]', '1:4 in a string this character is written \\n'],
  ['["\\x"]', '1:3 \\x is not an escape sequence'],
  ['["\\u12"]', '1:3 \\u12"] is not an escape sequence'],
  ['["\\ud800"]', '1:2 a string has half of a surrogate pair'],
  ['\ufeff{}', '1:1 the text begins with a byte order mark; leave it out'],
  ['['.repeat(128), '1:128 arrays and objects are nested more than 127 deep'],
];

/** What is said of a text: the faults, and the warnings. */
function judged(text, how) {
  const all = lint(text, how);
  return ['fault', 'warning'].map((kind) => all.filter(({ severity }) => severity === kind));
}

test('a text that is no JSON is reported with its place and its reason', () => {
  for (const [text, said] of NO_JSON) {
    const [[fault, ...others], warnings] = judged(text);
    const { rule, line, column, detail } = fault;
    assert.deepEqual([others.length, warnings.length, rule], [0, 0, 1]);
    assert.equal(`${line}:${column} ${detail.replace(/^line \d+, column \d+: /, '')}`, said, text.slice(0, 40));
  }
});

test('no text is too deep to be judged', () => {
  for (const text of ['['.repeat(100_000), '{"a":'.repeat(100_000), '{"children":['.repeat(50_000)]) {
    const names = lint(text).map(({ rule, name }) => [rule, name]);
    assert.deepEqual(names, text.includes('children') ? [[6, 'TooDeep']] : [[1, 'NotJson']]);
  }
});

test('places are those of values for faults, and those of names for warnings', () => {
  const text = '{\r\n  "id": "r", "é😀": 1,\n  "children": [ { "id": "a", "width": 0.5 } ],\n  "layoutOptions": { "elk.directon": "UP" }\n}';
  const [faults, warnings] = judged(text, { numbers: 'exact' });
  assert.deepEqual(faults.map(({ line, column, source, mark }) => [line, column, source[mark]]), [[3, 39, '0']]);
  assert.deepEqual(warnings.map(({ line, column, source, mark }) => [line, column, source[mark]]), [[4, 22, '"']]);
});

test('of a long line a piece is shown', () => {
  const text = `{"id":"r","own":"${'x'.repeat(5000)}","children":[{"id":"a","width":0.5}],"more":"${'y'.repeat(5000)}"}`;
  const [{ source, mark }] = lint(text, { numbers: 'exact' });
  assert.ok(source.length < 200);
  assert.equal(source.slice(mark, mark + 3), '0.5');
});

test('a member that stands twice is reported, and the last one counts', () => {
  const [faults, warnings] = judged('{"id":"r","width":0.5,"width":1}', { numbers: 'exact' });
  assert.deepEqual([faults, warnings.map(({ message }) => message)], [[], ['width is there twice, and the last one counts']]);
});

test('whole ids may be as large as those of the engine', () => {
  const ids = (one, other) => `{"children":[{"id":${one}},{"id":${other}}]}`;
  assert.deepEqual(lint(ids('18446744073709551615', '-9223372036854775808')), []);
  assert.deepEqual(lint(ids('9007199254740993', '9007199254740993')).map(({ rule }) => rule), [7]);
});

test('the command reports faults and warnings of files, and ends with its status', (t) => {
  const folder = mkdtempSync(path.join(tmpdir(), 'elk-lint-'));
  t.after(() => rmSync(folder, { recursive: true }));
  const file = (name, content) => {
    writeFileSync(path.join(folder, name), content);
    return path.join(folder, name);
  };
  const good = file('good.json', '{"id":"r"}');
  const bad = file('bad.json', '{"id":"r","children":[{"id":"a","widht":1,"height":0.5}]}');
  const binary = file('binary.json', Buffer.from([0x22, 0xff, 0x22]));
  for (const [words, status, stdout, stderr] of [
    [[good], 0, /^$/, /^$/],
    [['--exact', good, bad], 2, /^\S+bad\.json:1:52: a number is not whole: .*\n.*\n +\^\n\S+bad\.json:1:33: warning: children\[0\]\.widht is/, /^$/],
    [[bad], 0, /^\S+bad\.json:1:33: warning: children\[0\]\.widht is not read; did you mean "width"\?\n/, /^$/],
    [[binary], 2, /^\S+binary\.json: the document is not JSON: the bytes are not UTF-8 \(rule 1, NotJson\)\n$/, /^$/],
    [['--exact', path.join(folder, 'none.json'), bad], 3, /a number is not whole/, /^elk-lint: \S+none\.json can't be read: /],
    [['--help'], 5, /^$/, /^usage: elk-lint/],
  ]) {
    const ran = command(words);
    assert.equal(ran.status, status, words.join(' '));
    assert.match(ran.stdout, stdout);
    assert.match(ran.stderr, stderr);
  }
  const told = command(['--exact', '--json', good, bad]).stdout.trimEnd().split('\n').map((line) => JSON.parse(line));
  assert.deepEqual(told.map((it) => [it.file, it.lint.map(({ severity }) => severity)]), [[good, []], [bad, ['fault', 'warning']]]);
  assert.deepEqual([told[1].lint[0].path, told[1].lint[0].line], ['children[0].height', 1]);
});

test('the page shows what the command says', () => {
  const page = readFileSync(path.join(TOP, 'docs', 'EDITORS.md'), 'utf8');
  const [, block] = /echo '(.*)' \| adapters\/js\/bin\/elk-lint --exact\n((?: {4}.*\n)+)/.exec(page) ?? [];
  const [, , shown] = /echo '(.*)' \| adapters\/js\/bin\/elk-lint --exact\n((?: {4}.*\n)+)/.exec(page);
  assert.equal(command(['--exact'], `${block}\n`).stdout, shown.replace(/^ {4}/gm, ''));
});
