'use strict';
// The workers of the page. All of them have one script and one module.

const script = require('worker-script');

let [url, compiled] = [];

const isReading = () => document.readyState === 'loading';

/** The pieces of the packed module that the browser has read. While it reads the page, the last one may lack its end. */
const pieces = () => [...document.querySelectorAll('script.module')].slice(0, isReading() ? -1 : undefined);

/** Sends the packed module, piece by piece as the browser reads it. */
function sendModule(worker) {
  let sent = 0;
  const send = () => {
    const all = pieces();
    all.slice(sent).forEach(({ textContent }) => worker.postMessage({ kind: 'piece', packed: textContent }));
    sent = all.length;
    if (!isReading()) {
      worker.postMessage({ kind: 'end' });
    }
  };
  if (isReading()) {
    const observer = new MutationObserver(send);
    observer.observe(document.body, { childList: true });
    const finish = () => {
      observer.disconnect();
      send();
    };
    document.addEventListener('readystatechange', finish, { once: true });
  }
  send();
}

/** A worker with the module: as the page holds it, or compiled if another worker has done that. */
function newWorker() {
  url ??= URL.createObjectURL(new Blob([script], { type: 'text/javascript' }));
  const worker = new Worker(url);
  worker.addEventListener('message', ({ data }) => {
    compiled ??= data.module;
  });
  worker.postMessage({ kind: 'begin', module: compiled });
  if (!compiled) {
    sendModule(worker);
  }
  return worker;
}

module.exports = { newWorker };
