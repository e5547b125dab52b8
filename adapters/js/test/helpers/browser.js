'use strict';
// A Chromium without a window, asked through the pipe of its DevTools protocol.

const { writeFileSync } = require('node:fs');
const { Driven, programOf } = require('./driven');

const NAMES = ['chromium', 'chromium-browser', 'google-chrome'];

const WORDS = [
  '--headless=new',
  '--remote-debugging-pipe',
  '--no-sandbox',
  '--no-first-run',
  '--disable-gpu',
  '--disable-dev-shm-usage',
  '--disable-background-networking',
  '--disable-component-update',
];

/** The browser that the tests start: the one that ELK_BROWSER names, or a Chromium of the path. */
const browserFile = () => process.env.ELK_BROWSER ?? programOf(NAMES);

/** The options of a test that needs a browser: whether it is skipped, and why. */
const WITH_BROWSER = { skip: browserFile() ? false : 'no browser stands: ELK_BROWSER names a Chromium, or the path has one' };

/** One page of a browser. */
class Page {
  #browser;
  #session;
  #loaded;

  /** What went wrong in the page: errors that nobody caught, and those of the console. */
  faults = [];

  constructor(browser, session) {
    this.#browser = browser;
    this.#session = session;
  }

  /** Hears an event of this page. */
  hear({ method, params }) {
    if (method === 'Page.loadEventFired') {
      this.#loaded?.();
    } else if (method === 'Runtime.exceptionThrown') {
      const { text, exception } = params.exceptionDetails;
      this.faults.push(exception?.description ?? text);
    } else if (method === 'Log.entryAdded' && params.entry.level === 'error') {
      this.faults.push(params.entry.text);
    } else if (method === 'Runtime.consoleAPICalled' && params.type === 'error') {
      this.faults.push(params.args.map(({ value, description }) => value ?? description).join(' '));
    }
  }

  send(method, params = {}) {
    return this.#browser.send(method, params, this.#session);
  }

  async open(url) {
    const loaded = new Promise((resolve) => {
      this.#loaded = resolve;
    });
    const { errorText } = await this.send('Page.navigate', { url });
    if (errorText) {
      throw new Error(`${url}: ${errorText}`);
    }
    await loaded;
  }

  /** The value of an expression in the page, or that to which its promise resolves. It must be JSON. */
  async evaluate(expression) {
    const asked = { expression, awaitPromise: true, returnByValue: true };
    const { result, exceptionDetails } = await this.send('Runtime.evaluate', asked);
    if (exceptionDetails) {
      throw new Error(exceptionDetails.exception?.description ?? exceptionDetails.text);
    }
    return result.value;
  }

  /** Puts a text in where the focus is, as if it were typed. */
  async type(text) {
    await this.send('Input.insertText', { text });
  }

  /** Presses a key where the focus is. */
  async press(key) {
    const text = key.length === 1 ? { text: key } : {};
    await this.send('Input.dispatchKeyEvent', { type: 'keyDown', key, ...text });
    await this.send('Input.dispatchKeyEvent', { type: 'keyUp', key });
  }

  /** Shows the page in a window of another size. */
  async resize(width, height) {
    await this.send('Emulation.setDeviceMetricsOverride', { width, height, deviceScaleFactor: 1, mobile: false });
  }

  /** Shows the page as to a reader who has set light or dark. */
  async prefer(value) {
    await this.send('Emulation.setEmulatedMedia', { features: [{ name: 'prefers-color-scheme', value }] });
  }

  /** Clicks at a point of the page. */
  async click(x, y) {
    for (const type of ['mouseMoved', 'mousePressed', 'mouseReleased']) {
      await this.send('Input.dispatchMouseEvent', { type, x, y, button: 'left', clickCount: 1 });
    }
  }

  /** Writes what the page shows as PNG. */
  async screenshot(file) {
    const { data } = await this.send('Page.captureScreenshot', { format: 'png' });
    writeFileSync(file, Buffer.from(data, 'base64'));
  }
}

/** A running browser; `close` ends it. */
class Browser extends Driven {
  #pages = new Map();
  #rest = '';

  constructor() {
    super();
    this.start(browserFile(), [...WORDS, `--user-data-dir=${this.home}`], { stdio: ['ignore', 'ignore', 'ignore', 'pipe', 'pipe'] });
    this.child.stdio[4].setEncoding('utf8').on('data', (piece) => this.#take(piece));
    this.child.stdio[3].on('error', () => {});
  }

  // Messages end with a zero byte.
  #take(piece) {
    const messages = (this.#rest + piece).split('\0');
    this.#rest = messages.pop();
    messages.forEach((message) => this.#hear(JSON.parse(message)));
  }

  #hear(message) {
    const { id, result, error, sessionId } = message;
    if (id === undefined) {
      this.#pages.get(sessionId)?.hear(message);
    } else {
      this.answer(id, error, result);
    }
  }

  send(method, params, sessionId) {
    return this.call((id) => this.child.stdio[3].write(`${JSON.stringify({ id, method, params, sessionId })}\0`));
  }

  /** A page that shows an address, such as `file:///..`. */
  async open(url, { width = 1000, height = 700 } = {}) {
    const { targetId } = await this.send('Target.createTarget', { url: 'about:blank' });
    const { sessionId } = await this.send('Target.attachToTarget', { targetId, flatten: true });
    const page = new Page(this, sessionId);
    this.#pages.set(sessionId, page);
    await Promise.all(['Page', 'Runtime', 'Log'].map((domain) => page.send(`${domain}.enable`)));
    await page.resize(width, height);
    await page.open(url);
    return page;
  }

  /** Lets pages save files in a folder. */
  async saveIn(downloadPath) {
    await this.send('Browser.setDownloadBehavior', { behavior: 'allow', downloadPath });
  }

  async close() {
    await this.end(this.send('Browser.close'));
  }
}

module.exports = { Browser, WITH_BROWSER, browserFile };
