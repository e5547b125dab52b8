'use strict';
// Hands requests to the worker: one at a time, and of those that wait the newest alone.

/** A layout that was stopped, or for which a newer one came. */
class Stopped extends Error {}

// So long a request may go on, in milliseconds, after a newer one has come.
const PATIENCE = 600;

class Desk {
  #make;
  #worker;
  #current;
  #waiting;
  #timer;
  #next = 0;

  /** @param {() => Worker} make */
  constructor(make) {
    this.#make = make;
  }

  /** Makes the worker before the first request. */
  prepare() {
    this.#worker ??= this.#started();
  }

  /**
   * @param {object} message what the worker is asked
   * @param {(news: object) => void} [onNews] is told what the worker tells before its answer
   * @param {{ isPatient?: boolean }} [how] whether what is under way goes on however long it takes
   * @returns {Promise<object>} its answer; a Stopped where it was stopped, or a newer one came before it was answered
   */
  ask(message, onNews = () => {}, { isPatient = false } = {}) {
    return new Promise((resolve, reject) => {
      const request = { message, onNews, resolve, reject };
      if (!this.#current) {
        this.#send(request);
        return;
      }
      this.#waiting?.reject(new Stopped('a newer request came'));
      this.#waiting = request;
      if (!isPatient) {
        this.#timer ??= setTimeout(() => this.#restart(), PATIENCE);
      }
    });
  }

  /** Ends what is under way, and what waits. */
  stop() {
    const requests = [this.#current, this.#waiting].filter(Boolean);
    this.end();
    this.#waiting = undefined;
    requests.forEach(({ reject }) => reject(new Stopped('stopped')));
    this.prepare();
  }

  #restart() {
    const [current, waiting] = [this.#current, this.#waiting];
    this.end();
    this.#waiting = undefined;
    current?.reject(new Stopped('a newer request came'));
    if (waiting) {
      this.#send(waiting);
    }
  }

  /** Ends the worker; the next request starts another. */
  end() {
    clearTimeout(this.#timer);
    this.#timer = undefined;
    this.#current = undefined;
    this.#worker?.terminate();
    this.#worker = undefined;
  }

  #started() {
    const worker = this.#make();
    const ifCurrent = (tell) => (it) => worker === this.#worker && tell(it);
    worker.onmessage = ifCurrent(({ data }) => this.#hear(data));
    worker.onerror = ifCurrent(({ message }) => this.#fail(message ?? 'its script can not be loaded'));
    return worker;
  }

  #send(request) {
    this.#next += 1;
    this.#current = { ...request, id: this.#next };
    try {
      this.prepare();
      this.#worker.postMessage({ ...request.message, id: this.#next });
    } catch ({ message }) {
      this.#fail(message);
    }
  }

  #fail(why) {
    const requests = [this.#current, this.#waiting].filter(Boolean);
    this.end();
    this.#waiting = undefined;
    requests.forEach(({ reject }) => reject(new Error(`the worker ended: ${why}`)));
  }

  #hear({ id, news, answer, error }) {
    if (!this.#current || id !== this.#current.id) {
      return;
    }
    if (news) {
      this.#current.onNews(news);
      return;
    }
    const { resolve, reject } = this.#current;
    const waiting = this.#waiting;
    this.#current = undefined;
    this.#waiting = undefined;
    clearTimeout(this.#timer);
    this.#timer = undefined;
    if (waiting) {
      this.#send(waiting);
    }
    if (error) {
      reject(new Error(error));
    } else {
      resolve(answer);
    }
  }
}

module.exports = { Desk, Stopped };
