'use strict';
// The package as it is installed: from its tarball into an empty folder, without network and without the repository.

const assert = require('node:assert/strict');
const { spawnSync } = require('node:child_process');
const { cpSync, mkdirSync, writeFileSync } = require('node:fs');
const path = require('node:path');
const { moduleFile } = require('../../src/module/file');
const { WITH_MODULE } = require('./module');

const PACKAGE = path.join(__dirname, '..', '..');

const needs = (command) => (spawnSync(command, ['--version']).status === 0 ? false : `${command} is not there`);

const WITH_NPM = { skip: WITH_MODULE.skip || needs('npm') || needs('esbuild') };

/** Runs a command in a folder that knows nothing of the repository; it must end with 0. */
function run(cwd, [command, ...words], { input = '', environment = {} } = {}) {
  const { PATH, HOME } = process.env;
  const env = { PATH, HOME, npm_config_cache: path.join(cwd, '.cache'), npm_config_update_notifier: 'false', ...environment };
  const ran = spawnSync(command, words, { cwd, input, env, encoding: 'utf8', timeout: 120_000 });
  assert.equal(ran.status, 0, `${command} ${words.join(' ')}: ${ran.error ?? ''}${ran.stdout}${ran.stderr}`);
  return ran.stdout;
}

/** Packs the package in a folder, and returns the tarball. */
function packed(room) {
  const source = path.join(room, 'source');
  cpSync(PACKAGE, source, { recursive: true, dereference: true });
  const environment = { ELK_MODULE: path.resolve(moduleFile()) };
  return path.join(room, run(source, ['npm', 'pack', '--silent', '--pack-destination', room], { environment }).trim());
}

/** A new folder in which a tarball is installed, under a name of its own if one is given. */
function installed(room, tarball, name) {
  const user = path.join(room, name ?? 'user');
  mkdirSync(user);
  writeFileSync(path.join(user, 'package.json'), '{}');
  run(user, ['npm', 'install', '--offline', '--no-audit', '--no-fund', name ? `${name}@file:${tarball}` : tarball]);
  return user;
}

module.exports = { WITH_NPM, installed, needs, packed, run };
