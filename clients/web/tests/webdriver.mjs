// A browser without a window, by WebDriver: Debian's chromium and chromium-driver.

import { spawn } from "node:child_process";
import { mkdtempSync, rmSync } from "node:fs";
import { tmpdir } from "node:os";
import { join } from "node:path";

import { starts } from "./timed.mjs";

const ELEMENT = "element-6066-11e4-a52e-4f735466cecf";
const CONTROL = "\uE009";
const COMMAND = "\uE03D";
const ALT = "\uE00A";
const SHIFT = "\uE008";

/** Milliseconds until something that is due has to have come. */
const PATIENCE = 20_000;

/** How often the driver is started again. */
const TRIES = 5;

/** Milliseconds that a browser has to end by itself. */
const END = 5_000;

export class Browser {
  #driver;
  #profile = mkdtempSync(join(tmpdir(), "peritext-browser-"));
  #base;
  #isOver = false;

  /** Starts a browser that reaches this machine alone. It ends with the test. */
  static async start({ width = 1100, height = 700 } = {}) {
    const browser = new Browser();
    starts(() => browser.#close(), () => browser.#kill());
    await browser.#startDriver();
    await browser.#startSession(width, height);
    return browser;
  }

  async #close() {
    await this.#ask("DELETE", "", undefined, AbortSignal.timeout(END)).catch(() => {});
    this.#kill();
    rmSync(this.#profile, { recursive: true, force: true, maxRetries: 10, retryDelay: 100 });
  }

  /** Kills the browser with its driver: they are one group. */
  #kill() {
    if (this.#isOver) return;
    this.#isOver = true;
    try {
      process.kill(-this.#driver.pid, "SIGKILL");
    } catch {
      // All of them have ended.
    }
  }

  open(url) {
    return this.#ask("POST", "/url", { url });
  }

  reload() {
    return this.#ask("POST", "/refresh", {});
  }

  /** What a function gives in the page. It is sent as text. */
  run(work, ...args) {
    return this.#ask("POST", "/execute/sync", { script: `return (${work})(...arguments)`, args });
  }

  /** Has each page that is opened from now on run a script before its own. */
  before(script) {
    return this.#command("Page.addScriptToEvaluateOnNewDocument", { source: script });
  }

  /** How many milliseconds of the processor the page has taken so far: its scripts, the layout with its styles, and all of it. */
  async processor() {
    await this.#command("Performance.enable", { timeDomain: "threadTicks" });
    const { metrics } = await this.#command("Performance.getMetrics", {});
    const [script, layout, style, all] = ["Script", "Layout", "RecalcStyle", "Task"].map((part) => 1_000 * metrics.find(({ name }) => name === `${part}Duration`).value);
    return { script, layout: layout + style, all };
  }

  /** What the page's scripts spend their time on while something is done, as a profile of V8's. */
  async profile(work) {
    await this.#command("Profiler.enable", {});
    await this.#command("Profiler.start", {});
    await work();
    return (await this.#command("Profiler.stop", {})).profile;
  }

  /** Takes the window away, so that the page is in the background. */
  background() {
    return this.#ask("POST", "/window/minimize", {});
  }

  /** Brings the window back. */
  foreground() {
    return this.resize(1100, 700);
  }

  async click(selector) {
    await this.#ask("POST", `/element/${await this.#find(selector)}/click`, {});
  }

  /** The name that a screen reader speaks. */
  async label(selector) {
    return this.#ask("GET", `/element/${await this.#find(selector)}/computedlabel`);
  }

  /** Types keys where the focus is, with Control, Command, Alt or Shift held where it is said. */
  async keys(text, { control = false, command = false, alt = false, shift = false } = {}) {
    const held = [...(control ? [CONTROL] : []), ...(command ? [COMMAND] : []), ...(alt ? [ALT] : []), ...(shift ? [SHIFT] : [])];
    const actions = [
      ...held.map((value) => ({ type: "keyDown", value })),
      ...[...text].flatMap((value) => [{ type: "keyDown", value }, { type: "keyUp", value }]),
      ...held.map((value) => ({ type: "keyUp", value })),
    ];
    await this.#ask("POST", "/actions", { actions: [{ type: "key", id: "keys", actions }] });
  }

  /** Takes the mouse to a corner, where it is over nothing. */
  async pointAway() {
    const actions = [{ type: "pointerMove", x: 0, y: 0 }];
    await this.#ask("POST", "/actions", { actions: [{ type: "pointer", id: "mouse", actions }] });
  }

  resize(width, height) {
    return this.#ask("POST", "/window/rect", { width, height });
  }

  /** Puts a text in at once, as an input method or a list of emoji does. */
  put(text) {
    return this.#command("Input.insertText", { text });
  }

  /** Composes a word, as an input method does; `put` ends it. */
  compose(text) {
    return this.#command("Input.imeSetComposition", { text, selectionStart: text.length, selectionEnd: text.length });
  }

  /** Has the page be light or dark. */
  scheme(value) {
    return this.#command("Emulation.setEmulatedMedia", { features: [{ name: "prefers-color-scheme", value }] });
  }

  #command(cmd, params) {
    return this.#ask("POST", "/goog/cdp/execute", { cmd, params });
  }

  /** The page as a picture. */
  async picture() {
    return Buffer.from(await this.#ask("GET", "/screenshot"), "base64");
  }

  /** What the page complained of since the last time. */
  async complaints() {
    const entries = await this.#ask("POST", "/se/log", { type: "browser" });
    return entries.filter(({ level }) => level === "SEVERE").map(({ message }) => message);
  }

  /** Waits until a function gives something true in the page. */
  async until(work, ...args) {
    const end = Date.now() + PATIENCE;
    for (;;) {
      const found = await this.run(work, ...args);
      if (found) return found;
      if (Date.now() > end) throw new Error(`in vain was waited for ${work}(${args.map((arg) => JSON.stringify(arg))})`);
      await new Promise((done) => setTimeout(done, 50));
    }
  }

  async #find(selector) {
    return (await this.#ask("POST", "/element", { using: "css selector", value: selector }))[ELEMENT];
  }

  /** It looks for a port by itself, and ends if somebody has that one. */
  async #startDriver() {
    for (let left = TRIES; ; left -= 1) {
      try {
        return await this.#startDriverOnce();
      } catch (error) {
        if (left === 0) throw error;
      }
    }
  }

  async #startDriverOnce() {
    // What the browser leaves behind if it is killed goes with its profile.
    const env = { ...process.env, TMPDIR: this.#profile };
    this.#driver = spawn("chromedriver", ["--port=0"], { stdio: ["ignore", "pipe", "ignore"], detached: true, env });
    let said = "";
    const port = await new Promise((resolve, reject) => {
      this.#driver.on("exit", () => reject(new Error(`chromedriver ended: ${said}`)));
      this.#driver.stdout.setEncoding("utf8").on("data", (part) => {
        said += part;
        const [, found] = /started successfully on port (\d+)/.exec(said) ?? [];
        if (found) resolve(found);
      });
    });
    this.#base = `http://127.0.0.1:${port}/session`;
  }

  async #startSession(width, height) {
    const words = [
      "--headless=new",
      `--window-size=${width},${height}`,
      `--user-data-dir=${this.#profile}`,
      "--disable-dev-shm-usage",
      "--disable-gpu",
      "--hide-scrollbars",
      "--no-first-run",
      "--disable-background-networking",
      "--disable-component-update",
      "--disable-sync",
      "--host-resolver-rules=MAP * ~NOTFOUND, EXCLUDE 127.0.0.1",
    ];
    // Its sandbox isn't for root.
    if (process.getuid() === 0) words.push("--no-sandbox");
    const wanted = { browserName: "chrome", "goog:chromeOptions": { args: words }, "goog:loggingPrefs": { browser: "ALL" } };
    const capabilities = { alwaysMatch: { ...wanted, unhandledPromptBehavior: "accept" } };
    const { sessionId } = await this.#ask("POST", "", { capabilities });
    this.#base += `/${sessionId}`;
  }

  async #ask(method, path, body, signal) {
    const response = await fetch(this.#base + path, { method, body: body && JSON.stringify(body), signal });
    const { value } = await response.json();
    if (!response.ok) throw new Error(`${value.error}: ${value.message}`);
    return value;
  }
}
