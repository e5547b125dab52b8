'use strict';
// A Firefox without a window, asked by the messages of its Marionette.

const { readFileSync, writeFileSync } = require('node:fs');
const { connect } = require('node:net');
const path = require('node:path');
const { setTimeout: rest } = require('node:timers/promises');
const { Driven, programOf } = require('./driven');

const NAMES = ['firefox', 'firefox-esr'];

/** The Firefox that the tests start: the one that ELK_FIREFOX names, or one of the path. */
const firefoxFile = () => process.env.ELK_FIREFOX ?? programOf(NAMES);

/** The options of a test that needs Firefox: whether it is skipped, and why. */
const WITH_FIREFOX = { skip: firefoxFile() ? false : 'no Firefox stands: ELK_FIREFOX names one, or the path has one' };

const PREFERENCES = {
  'marionette.port': 0,
  'browser.shell.checkDefaultBrowser': false,
  'browser.startup.page': 0,
  'browser.aboutwelcome.enabled': false,
  'datareporting.policy.dataSubmissionEnabled': false,
  'toolkit.telemetry.enabled': false,
  'app.update.enabled': false,
  'network.captive-portal-service.enabled': false,
  'network.connectivity-service.enabled': false,
  'browser.download.folderList': 2,
  'browser.download.useDownloadDir': true,
  'browser.download.alwaysOpenPanel': false,
};

// Keys without a letter have numbers of their own here.
const KEYS = { Enter: '\ue007', Escape: '\ue00c', ArrowLeft: '\ue012', ArrowRight: '\ue014' };

const preferencesOf = (given) =>
  Object.entries({ ...PREFERENCES, ...given })
    .map(([name, value]) => `user_pref(${JSON.stringify(name)}, ${JSON.stringify(value)});\n`)
    .join('');

// What is written into the page, so that it may wait for a promise.
const AWAITED = `const [expression, done] = arguments;
const fail = (error) => done({ error: String(error?.stack ?? error) });
(async () => (0, eval)(expression))().then((value) => done({ value }), fail);`;

/** The one page of a running Firefox. `Firefox.started` starts it, `close` ends it. */
class Firefox extends Driven {
  #socket;
  #rest = Buffer.alloc(0);
  #greet;

  /** @param {{ downloads?: string, preferences?: object }} [given] the folder of downloads, and settings */
  static async started({ downloads, preferences = {} } = {}) {
    const firefox = new Firefox();
    await firefox.#start({ ...preferences, ...(downloads && { 'browser.download.dir': downloads }) });
    return firefox;
  }

  async #start(preferences) {
    writeFileSync(path.join(this.home, 'user.js'), preferencesOf(preferences));
    const words = ['--headless', '--no-remote', '--marionette', '--profile', this.home];
    this.start(firefoxFile(), words, { stdio: 'ignore', env: { ...process.env, HOME: this.home } });
    await this.#connect(await this.#port());
    await this.send('WebDriver:NewSession', {});
    await this.send('WebDriver:SetTimeouts', { script: 60_000, pageLoad: 60_000 });
  }

  // It writes the port that it has taken into its profile.
  async #port() {
    for (;;) {
      try {
        const port = Number(readFileSync(path.join(this.home, 'MarionetteActivePort'), 'utf8'));
        if (port > 0) {
          return port;
        }
      } catch {
        // It hasn't yet.
      }
      if (this.hasEnded) {
        throw new Error('the browser has ended before it could be asked');
      }
      await rest(50);
    }
  }

  async #connect(port) {
    this.#socket = connect(port, '127.0.0.1');
    // The first message is a greeting, and answers no call.
    const greeted = this.call((id) => {
      this.#greet = id;
    });
    this.#socket.on('data', (piece) => this.#take(piece));
    this.#socket.on('error', (error) => this.fail(error));
    await greeted;
  }

  // Each message follows its length in bytes and a colon.
  #take(piece) {
    this.#rest = Buffer.concat([this.#rest, piece]);
    for (;;) {
      const colon = this.#rest.indexOf(':');
      const length = Number(this.#rest.subarray(0, Math.max(colon, 0)));
      if (colon < 0 || this.#rest.length < colon + 1 + length) {
        return;
      }
      const message = JSON.parse(this.#rest.subarray(colon + 1, colon + 1 + length));
      this.#rest = this.#rest.subarray(colon + 1 + length);
      this.#hear(message);
    }
  }

  #hear(message) {
    const [, id, error, result] = Array.isArray(message) ? message : [1, this.#greet, null, message];
    this.answer(id, error, result);
  }

  send(name, parameters = {}) {
    return this.call((id) => {
      const text = JSON.stringify([0, id, name, parameters]);
      this.#socket.write(`${Buffer.byteLength(text)}:${text}`);
    });
  }

  /** Shows an address, such as `file:///..`, in a window whose page has this size. */
  async open(url, { width = 1000, height = 700 } = {}) {
    await this.send('WebDriver:Navigate', { url });
    await this.resize(width, height);
    return this;
  }

  /** Gives the page another size, as far as the window takes it. */
  async resize(width, height) {
    const [beside, above] = await this.evaluate('[outerWidth - innerWidth, outerHeight - innerHeight]');
    await this.send('WebDriver:SetWindowRect', { width: width + beside, height: height + above });
  }

  /** The value of an expression in the page, or that to which its promise resolves. It must be JSON. */
  async evaluate(expression) {
    const asked = { script: AWAITED, args: [expression], newSandbox: false, sandbox: null };
    const { value: told } = await this.send('WebDriver:ExecuteAsyncScript', asked);
    if (told.error) {
      throw new Error(told.error);
    }
    return told.value;
  }

  /** Puts a text in where the focus is, as if it were typed. */
  async type(text) {
    const { value } = await this.send('WebDriver:GetActiveElement');
    await this.send('WebDriver:ElementSendKeys', { id: Object.values(value)[0], text });
  }

  /** Presses a key where the focus is. */
  async press(key) {
    const value = KEYS[key] ?? key;
    const steps = ['keyDown', 'keyUp'].map((type) => ({ type, value }));
    await this.send('WebDriver:PerformActions', { actions: [{ type: 'key', id: 'keys', actions: steps }] });
  }

  /** Clicks at a point of the page. */
  async click(x, y) {
    const to = { type: 'pointerMove', x: Math.round(x), y: Math.round(y), origin: 'viewport', duration: 0 };
    const steps = [to, { type: 'pointerDown', button: 0 }, { type: 'pointerUp', button: 0 }];
    await this.send('WebDriver:PerformActions', { actions: [{ type: 'pointer', id: 'mouse', actions: steps }] });
  }

  /** Writes what the page shows as PNG. */
  async screenshot(file) {
    const { value } = await this.send('WebDriver:TakeScreenshot', { full: false });
    writeFileSync(file, Buffer.from(value, 'base64'));
  }

  async close() {
    await this.end(this.send('Marionette:Quit', { flags: ['eForceQuit'] }));
    this.#socket.destroy();
  }
}

module.exports = { Firefox, WITH_FIREFOX, firefoxFile };
