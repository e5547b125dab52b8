'use strict';
// The programs that the tests ask, none if a name is empty: `elk-draw`, which ELK_DRAW names, and `elk`, which ELK_PROGRAM
// names. Without these names the tests take the built ones. No test builds them.

const { spawnSync } = require('node:child_process');
const { accessSync, constants } = require('node:fs');
const path = require('node:path');

const TOP = path.join(__dirname, '..', '..', '..', '..');

function isThere(program) {
  try {
    accessSync(program, constants.X_OK);
    return true;
  } catch {
    return false;
  }
}

const ENGINE = process.env.ELK_PROGRAM ?? path.join(TOP, 'crates', 'elk', 'out', 'elk');

// The package takes its module, unless a test says otherwise.
delete process.env.ELK_DRAW_PROGRAM;

const PROGRAM = process.env.ELK_DRAW ?? path.join(TOP, 'crates', 'elk_draw', 'out', 'elk_draw');

/** Whether a test that asks the programs is skipped, and why. */
const WITH_PROGRAM = { skip: isThere(PROGRAM) && isThere(ENGINE) ? false : 'a program is missing: ELK_DRAW and ELK_PROGRAM name them, or the gate builds them' };

/** Runs `elk`. */
const run = (words, input) => spawnSync(ENGINE, words, { input, encoding: 'utf8', maxBuffer: 2 ** 28 });

/** The reply of `elk-draw` to a request. */
const replyOf = (request) => JSON.parse(spawnSync(PROGRAM, ['--lines'], { input: `${JSON.stringify(request)}\n`, encoding: 'utf8', maxBuffer: 2 ** 28 }).stdout);

module.exports = { PROGRAM, TOP, WITH_PROGRAM, replyOf, run };
