// The demo and its page in a browser, with what a person does there.

import { mkdirSync, writeFileSync } from "node:fs";
import { join } from "node:path";

import { connect } from "../../js/src/node.js";
import { newDemo } from "./support.mjs";
import { Browser } from "./webdriver.mjs";

/** The text that is open at first. */
export const FIRST = 3;

/** Where pictures of the page go, if anywhere. */
const { PICTURES } = process.env;

/** Runs a test over a new demo, which is gone afterwards. */
export async function withPage(test) {
  const demo = newDemo();
  const address = await demo.start();
  const browser = await Browser.start();
  const page = new Page(browser, demo, address);
  try {
    await browser.open(address);
    await page.isRead();
    await test(page);
  } catch (error) {
    error.message += `\nThe page: ${await browser.run(() => document.body.innerText).catch(() => "is gone")}`;
    throw error;
  }
}

export class Page {
  constructor(browser, demo, address) {
    Object.assign(this, { browser, demo, address });
  }

  /** Waits until both editors are there. */
  isRead() {
    return this.browser.until(() => document.querySelectorAll(".ProseMirror").length === 2);
  }

  /** Puts the caret at the end of an editor. */
  async goTo(name) {
    await this.browser.run((id) => {
      const editor = document.querySelector(`#${id} .ProseMirror`);
      editor.focus();
      getSelection().selectAllChildren(editor.lastElementChild);
      getSelection().collapseToEnd();
    }, name);
    await pause(60);
  }

  /** Selects a text within one paragraph of an editor, whatever marks its parts have. */
  async select(name, text) {
    await this.browser.run(
      (id, wanted) => {
        const editor = document.querySelector(`#${id} .ProseMirror`);
        editor.focus();
        const paragraph = [...editor.children].find(({ textContent }) => textContent.includes(wanted));
        const walker = document.createTreeWalker(paragraph, NodeFilter.SHOW_TEXT);
        const ends = [];
        let from = paragraph.textContent.indexOf(wanted);
        let to = from + wanted.length;
        while (walker.nextNode()) {
          const { length } = walker.currentNode;
          if (from >= 0 && from < length) ends.push(walker.currentNode, from);
          if (to > 0 && to <= length) ends.push(walker.currentNode, to);
          from -= length;
          to -= length;
        }
        getSelection().setBaseAndExtent(...ends);
      },
      name,
      text,
    );
    await pause(60);
  }

  /** The ids that the next comments get, in place of random ones. */
  nextIds(...ids) {
    return this.browser.run((given) => (crypto.randomUUID = () => given.shift()), ids);
  }

  /** Comments on a text. */
  async comment(name, text, words = "Hm.") {
    await this.select(name, text);
    await this.press(name, "comment");
    await this.browser.keys(`${words}\uE006`);
  }

  /** The names of the texts of a peer, with a star at the one that is open. */
  texts(name) {
    return this.browser.run((id) => {
      const buttons = [...document.querySelectorAll(`#${id} .texts li button`)];
      return buttons.map(({ textContent, ariaCurrent }) => textContent + (ariaCurrent === "true" ? "*" : ""));
    }, name);
  }

  /** Waits until a peer has these texts, with a star at the one that is open. */
  async hasTexts(name, ...wanted) {
    for (const end = Date.now() + 20_000; ; await pause(50)) {
      const texts = await this.texts(name);
      if (texts.join("|") === wanted.join("|")) return;
      if (Date.now() > end) throw new Error(`in vain was waited for ${wanted}: there are ${texts}`);
    }
  }

  /** Makes a text, or gives the open one another name. */
  async nameText(name, what, called) {
    await this.browser.click(`#${name} [data-names="${what}"]`);
    await this.browser.keys(`${called}\uE006`);
    // A new text is read before anybody writes there.
    if (what === "make") await this.browser.until((id) => document.activeElement.matches(`#${id} .ProseMirror`), name);
  }

  /** Opens a text by its name. */
  async openText(name, called) {
    const found = (id, wanted) => [...document.querySelectorAll(`#${id} .texts li button`)].find(({ textContent }) => textContent === wanted)?.dataset.text;
    const number = await this.browser.until(found, name, called);
    await this.browser.click(`#${name} [data-text="${number}"]`);
    await this.browser.until((id) => document.activeElement.matches(`#${id} .ProseMirror`), name);
    return Number(number);
  }

  press(name, what) {
    return this.browser.click(`#${name} [data-do="${what}"]`);
  }

  /** Kills the daemon of a peer, or starts it. */
  power(name) {
    return this.browser.click(`#${name} .power`);
  }

  async type(name, text) {
    await this.goTo(name);
    await this.browser.keys(text);
  }

  paste(name, text, type = "text/plain") {
    return this.browser.run(
      (id, pasted, as) => {
        const clipboardData = new DataTransfer();
        clipboardData.setData(as, pasted);
        const paste = new ClipboardEvent("paste", { clipboardData, bubbles: true, cancelable: true });
        document.querySelector(`#${id} .ProseMirror`).dispatchEvent(paste);
      },
      name,
      text,
      type,
    );
  }

  /** What an editor shows, a line for each paragraph. */
  text(name) {
    return this.browser.run((id) => [...document.querySelectorAll(`#${id} .ProseMirror p`)].map((p) => p.textContent).join("\n"), name);
  }

  /** How an editor shows its document, without the carets of others. */
  html(name) {
    return this.browser.run((id) => {
      const shown = document.querySelector(`#${id} .ProseMirror`).cloneNode(true);
      for (const caret of shown.querySelectorAll(".caret, .ProseMirror-separator, .ProseMirror-trailingBreak")) caret.remove();
      for (const selected of shown.querySelectorAll(".theirs")) selected.replaceWith(...selected.childNodes);
      shown.normalize();
      return shown.innerHTML;
    }, name);
  }

  /** Waits until an editor shows a text. */
  shows(name, text) {
    return this.browser.until(
      (id, wanted) => [...document.querySelectorAll(`#${id} .ProseMirror p`)].map((p) => p.textContent).join("\n") === wanted,
      name,
      text,
    );
  }

  /** Waits until both show the same and nothing waits. */
  agrees() {
    return this.browser.until(
      () =>
        document.querySelector("#same").dataset.same === "true" &&
        [...document.querySelectorAll(".saved")].every((saved) => saved.dataset.state === "saved"),
    );
  }

  link(state) {
    return this.browser.until((wanted) => document.querySelector("#link").dataset.state === wanted, state);
  }

  daemonIs(name, state) {
    return this.browser.until((id, wanted) => document.querySelector(`#${id} .daemon`).dataset.state === wanted, name, state);
  }

  savedIs(name, state) {
    return this.browser.until((id, wanted) => document.querySelector(`#${id} .saved`).dataset.state === wanted, name, state);
  }

  /** A session of one's own at the daemon of a peer, which ends with its connection. */
  session(name) {
    return connect(this.demo.daemon(name).ports.sessions, { retry: null });
  }

  /** Takes a picture of the page, with nothing under the mouse and no caret. */
  async picture(name) {
    if (!PICTURES) return;
    await this.goTo("alice");
    await this.browser.run(() => document.activeElement.blur());
    await this.browser.pointAway();
    mkdirSync(PICTURES, { recursive: true });
    writeFileSync(join(PICTURES, `${name}.png`), await this.browser.picture());
  }

  /** What the daemon of a peer has. */
  async spans(name) {
    const session = await this.session(name);
    const spans = await session.document(FIRST).spans();
    await session.close();
    return spans;
  }
}

export function pause(milliseconds) {
  return new Promise((done) => setTimeout(done, milliseconds));
}
