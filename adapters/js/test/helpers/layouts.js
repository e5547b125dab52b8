'use strict';
// Who lays out the documents of a judge: the package, or a program that answers requests of a line. Each has a `layout`, which
// returns the placed graph, or the fault for which there is none, and is ended by `stop`.

const { spawn } = require('node:child_process');
const { createInterface } = require('node:readline');
const ELK = require('../../src/elk');
const { Server } = require('../../src/engines/server');
const { moduleBytes } = require('../../src/module/file');

/** A worker for the module that answers in this process, which takes less time than a thread. */
function workerHere() {
  const server = new Server(moduleBytes);
  const worker = { postMessage: (data) => server.answer(data).then((reply) => worker.onmessage({ data: reply })), terminate: () => {} };
  return worker;
}

/** The package for JavaScript, with the engine that ELK_DRAW_PROGRAM names, or else with the module. */
function callLayout() {
  const elk = new ELK({ onWarning: () => {}, ...(!process.env.ELK_DRAW_PROGRAM && { workerFactory: workerHere }) });
  const layout = (graph) => elk.layout(graph).then((placed) => ({ placed }), (error) => ({ fault: error.rule ? error.message : error.stack }));
  return { layout, stop: () => elk.terminateWorker() };
}

/** A program such as `elk-draw --lines`, of which one process answers all requests. */
function programLayout(program) {
  const child = spawn(program, ['--lines'], { stdio: ['pipe', 'pipe', 'inherit'] });
  const replies = createInterface({ input: child.stdout })[Symbol.asyncIterator]();
  const layout = async (graph) => {
    child.stdin.write(`${JSON.stringify({ graph, give: ['placed'] })}\n`);
    const { value, done } = await replies.next();
    if (done) {
      throw new Error(`${program} has ended without a reply`);
    }
    const { placed, fault } = JSON.parse(value);
    return { placed, fault: fault?.message };
  };
  return { layout, stop: () => child.stdin.end() };
}

module.exports = { callLayout, programLayout };
