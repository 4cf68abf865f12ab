/** One side of the page: the texts of one daemon, and an editor for the one that is open. */

import { Ended } from "peritext";

import { Legend } from "./authors/legend.js";
import { Writers } from "./authors/writers.js";
import { CaretRelay } from "./carets/relay.js";
import { buttonOf, commandOf, selectRange, selectedWords, setLink, toggleEm, toggleLink, toggleStrong } from "./commands.js";
import { Comments } from "./comments/comments.js";
import { Connection } from "./connection.js";
import { redo, undo } from "./history.js";
import { Lines } from "./lists/lines.js";
import { FIRST, MOST, NAMES, REMARKS, lineOf, namedIn, newNumber, textsIn, toldApart } from "./lists/names.js";
import { Notice } from "./notice.js";
import { Past } from "./past/past.js";
import { remembered } from "./remembered.js";
import { Search } from "./search/search.js";
import { showSelection } from "./shown_selection.js";
import { TextEditor } from "./text_editor.js";
import { Texts } from "./texts.js";
import { Tools } from "./tools.js";

export class Peer {
  #person;
  #place;
  #onChange;
  #tell;
  #notice;
  #connection;
  #names;
  #remarks;
  #namedIn = remembered((lines) => toldApart(textsIn(lines)));
  #texts;
  #tools;
  #comments;
  #search;
  #past;
  #relay;
  #writers;
  #legend;
  /** Whether the text is coloured by who wrote it. */
  #isColoured = false;
  /** The editors of the texts that were opened, by their numbers. @type {Map<number, TextEditor>} */
  #editors = new Map();
  /** @type {TextEditor} */
  #open;

  /**
   * @param {{name: string, colour: number}} person who writes here, and the number of their caret's colour
   * @param {HTMLElement} place its card on the page
   * @param {object} parts
   * @param {() => void} parts.onChange
   * @param {(text: string) => void} parts.tell is told what a screen reader says
   * @param {import("./authors/writers.js").Replicas} parts.replicas
   * @param {string[]} parts.others the other sides
   */
  constructor(person, place, { onChange, tell, replicas, others }) {
    const { name } = person;
    this.#person = person;
    this.#place = place;
    this.#onChange = onChange;
    this.#tell = tell;
    this.#part("h2").textContent = name;
    this.#notice = new Notice(this.#part(".notice"), tell);
    this.#connection = new Connection({ onError: (error) => this.#fail(error), onPull: () => this.#notice.clear("fault") });
    this.#writers = new Writers(replicas, name, others, () => this.#connection.linked());
    this.#legend = new Legend(this.#part(".writers"), name);
    this.#names = this.#lines(NAMES);
    this.#remarks = this.#lines(REMARKS);
    this.#texts = new Texts(this.#part(".texts"), name, {
      open: (number) => this.#choose(number),
      make: (called) => this.#make(called),
      rename: (number, called) => this.#rename(number, called),
    });
    this.#tools = new Tools(this.#part(".tools"), name, {
      press: (what) => this.#do(what),
      link: () => this.#do("link", setLink),
      leave: () => this.#open.view?.focus(),
    });
    this.#comments = new Comments(name, place, { remarks: this.#remarks, editor: () => this.#open.view, tell, refuse: (why) => this.#refuse(why) });
    this.#search = new Search(this.#part(".search"), name, {
      finder: () => this.#open.finder,
      onChange: () => this.#notice.clear("hint"),
      tell,
      leave: (range) => this.#leaveSearch(range),
    });
    this.#past = new Past(place, name, {
      text: () => this.#open,
      writers: this.#writers,
      onChange: () => this.#update(),
      refuse: (why) => this.#refuse(why),
      leave: () => this.#open.view?.focus(),
    });
    for (const part of [".tools", ".thread", ".search"]) this.#showsSelectionIn(this.#part(part));
    for (const part of [".texts", ".thread"]) this.#part(part).addEventListener("input", () => this.#notice.clear("hint"));
    this.#relay = new CaretRelay(() => this.#tellOthers());
    this.#show(Number(sessionStorage.getItem(this.#memory)) || FIRST);
    for (const list of [this.#names, this.#remarks]) this.#connection.follow(list);
  }

  /** @param {number | undefined} port where the daemon takes WebSockets, while it runs */
  set port(port) {
    this.#connection.port = port;
  }

  /** The number of the text that is open, and what its editor shows, or nothing before the first reading. */
  get number() {
    return this.#open.number;
  }

  get doc() {
    return this.#open.doc;
  }

  /** How many edits aren't known to be on the daemon's disk. */
  get waiting() {
    return [...this.#editors.values(), this.#names, this.#remarks].reduce((sum, { waiting }) => sum + waiting, 0);
  }

  #lines(number) {
    return new Lines(number, { onChange: () => this.#update(), onError: (error) => this.#fail(error) });
  }

  /** Where it is kept which text is open, while the page is loaded again. */
  get #memory() {
    return `text of ${this.#person.name}`;
  }

  /** Opens a text, and goes there. */
  #choose(number) {
    this.#show(number);
    this.#tell(`${this.#named.find((text) => text.number === number)?.name} is open.`);
    this.#open.focus();
  }

  #show(number) {
    this.#past.close();
    this.#open?.finder?.seek("");
    this.#open = this.#editorOf(number);
    this.#open.show(this.#part(".page"));
    sessionStorage.setItem(this.#memory, String(number));
    this.#comments.leave();
    this.#relay.leave();
    this.#connection.follow(this.#open);
    this.#tellOthers();
    this.#open.carets?.lookAgain();
    this.#open.authors?.show(this.#isColoured);
    this.#search.again();
    this.#update();
  }

  #editorOf(number) {
    const editor = this.#editors.get(number) ?? this.#newEditor(number);
    this.#editors.set(number, editor);
    return editor;
  }

  #newEditor(number) {
    return new TextEditor(number, this.#person.name, {
      onOpen: () => this.#opened(),
      onChange: () => this.#update(),
      onError: (error) => this.#fail(error),
      search: { onFound: () => this.#search.tell(), onFault: (error) => this.#refuse(error.message) },
      key: (event) => this.#key(event),
      comment: (id) => this.#comments.show(id),
      writers: this.#writers,
      say: (caret) => caret.document === this.number && this.#relay.say({ ...this.#person, ...caret }),
    });
  }

  #opened() {
    this.#tellOthers();
    if (this.#isColoured) this.#open.authors?.show(true);
    this.#search.again();
    this.#update();
  }

  /** Tells the editor that is shown of the carets of others in its text. */
  #tellOthers() {
    this.#open.carets?.become(this.#relay.othersIn(this.number));
  }

  get #named() {
    return this.#namedIn(this.#names.lines);
  }

  /** @param {string} name */
  #make(name) {
    const texts = this.#named;
    if (texts.length >= MOST) return this.#refuse("There is no room for another text.");
    if (!this.#takes(name)) return false;
    const number = newNumber(texts);
    this.#names.put(lineOf({ number, name }));
    this.#choose(number);
    return true;
  }

  #rename(number, name) {
    if (!this.#takes(name)) return false;
    this.#names.put(lineOf({ number, name }), (line) => namedIn(line)?.number === number);
    return true;
  }

  #takes(name) {
    if (!this.#names.isRead) return this.#refuse("The names aren't read yet.");
    if (name === "") return this.#refuse("Give it a name.");
    return this.#named.some((text) => text.name === name) ? this.#refuse("Another text has this name.") : true;
  }

  #refuse(why) {
    this.#notice.say("hint", why);
    return false;
  }

  /** While a part has the focus the selection in the text is shown, though the browser may draw it no longer. */
  #showsSelectionIn(part) {
    for (const [event, isShown] of [["focusin", true], ["focusout", false]]) {
      part.addEventListener(event, () => this.#dispatched(showSelection(isShown)));
    }
  }

  /** The end of a session is shown by the daemon's state; any other refusal is for whoever types. */
  #fail(error) {
    if (!(error instanceof Ended)) this.#notice.say("fault", error.message);
  }

  /** Whether a key did something. One with a button does what the button does. */
  #key(event) {
    const what = buttonOf(event);
    if (what !== undefined) this.#do(what);
    if (event.key === "Escape" && !event.isComposing && this.#comments.close()) return true;
    return what !== undefined || (this.#dispatched(commandOf(event)) ?? false);
  }

  #dispatched(command) {
    const { view } = this.#open;
    return view && command?.(view.state, view.dispatch);
  }

  /**
   * @param {string} what a button's
   * @param {typeof toggleLink} linked makes the command of a link
   */
  #do(what, linked = toggleLink) {
    if (this.#open.view === undefined) return;
    const { address } = this.#tools;
    const commands = { strong: toggleStrong, em: toggleEm, link: address && linked(address), undo, redo };
    this.#notice.clear("hint");
    if (what === "comment" && this.#comments.begin()) return;
    if (what === "find") return this.#search.open(selectedWords(this.#open.view.state));
    if (what === "history") return this.#past.toggle();
    if (what === "writers") this.#colour();
    else if (!this.#dispatched(commands[what])) this.#hint(what, address);
    this.#open.view.focus();
  }

  /** @param {import("./search/drawn.js").Range} [range] what is to be selected */
  #leaveSearch(range) {
    if (range !== undefined) this.#dispatched(selectRange(range));
    this.#open.view?.focus();
  }

  /** Has the text coloured by who wrote it, or no longer. */
  #colour() {
    this.#isColoured = !this.#isColoured;
    this.#open.authors.show(this.#isColoured);
  }

  /** Shows the colours anew, as after somebody was given a name. */
  recolour() {
    this.#open.authors?.redraw();
    this.#past.update();
  }

  #hint(what, address) {
    if (what === "link" && address === undefined) this.#refuse("Give a whole address, as https://example.org/");
    else if (what === "link" || what === "comment") this.#refuse("Select some text first.");
  }

  /** Shows all that may have changed, and follows a text no longer that is hidden and all sent. */
  #update() {
    for (const editor of this.#editors.values()) if (editor !== this.#open && editor.waiting === 0) this.#connection.leave(editor);
    const { view } = this.#open;
    const { waiting } = this;
    const saved = this.#part(".saved");
    saved.dataset.state = waiting === 0 ? "saved" : "waiting";
    saved.textContent = view === undefined ? "not read yet" : waiting === 0 ? "saved" : `${waiting} ${waiting === 1 ? "edit waits" : "edits wait"}`;
    this.#texts.update(this.#named, this.number);
    if (view !== undefined) this.#tools.update(view.state, { writers: this.#isColoured, history: this.#past.isOpen });
    this.#search.update();
    this.#legend.update(this.#isColoured ? (this.#open.authors?.seen ?? []).map((by) => this.#writers.writer(by)) : []);
    this.#comments.update();
    this.#onChange();
  }

  /** @param {string} selector */
  #part(selector) {
    return /** @type {HTMLElement} */ (this.#place.querySelector(selector));
  }
}
