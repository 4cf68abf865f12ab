// A stand-in for CodeMirror 6, by the pages of its interface: states with a text and a selection, transactions that are
// filtered, views that tell their plugins of each. Its modules are `state` and `view`, as `@codemirror/state` and so on.

/** Where a text parts into lines, unless a state says so. */
const BREAKS = /\r\n?|\n/;

class Text {
  #string;

  constructor(string) {
    this.#string = string;
  }

  get length() {
    return this.#string.length;
  }

  toString() {
    return this.#string;
  }

  sliceString(from, to) {
    return this.#string.slice(from, to);
  }

  eq(other) {
    return this.#string === other.toString();
  }
}

/** Changes of a text, each over what was there before all of them: `{ from, to, insert }`, in the order of the text. */
class ChangeSet {
  #changes;

  constructor(changes) {
    this.#changes = changes;
  }

  apply(doc) {
    let at = 0;
    const parts = this.#changes.map(({ from, to, insert }) => {
      const before = doc.sliceString(at, from);
      at = to;
      return before + insert;
    });
    return new Text(parts.join("") + doc.sliceString(at));
  }

  /** Those that touch are one. */
  iterChanges(act) {
    let shift = 0;
    for (let index = 0; index < this.#changes.length; index += 1) {
      const { from } = this.#changes[index];
      let { to, insert } = this.#changes[index];
      while (this.#changes[index + 1]?.from === to) {
        index += 1;
        insert += this.#changes[index].insert;
        to = this.#changes[index].to;
      }
      if (from === to && insert === "") continue;
      act(from, to, from + shift, from + shift + insert.length, new Text(insert));
      shift += insert.length - (to - from);
    }
  }

  /** Where a place is behind them. With an `assoc` above 0 it is after what comes just there. */
  mapPos(place, assoc = -1) {
    let shift = 0;
    for (const { from, to, insert } of this.#changes) {
      if (from > place || (from === place && to === place && assoc < 0)) break;
      if (to > place) return from + shift + (place === from || assoc < 0 ? 0 : insert.length);
      shift += insert.length - (to - from);
    }
    return place + shift;
  }
}

class Annotation {
  constructor(type, value) {
    Object.assign(this, { type, value });
  }

  static define() {
    const type = { of: (value) => new Annotation(type, value) };
    return type;
  }
}

function facet() {
  const found = { of: (value) => ({ facet: found, value }) };
  return found;
}

class EditorSelection {
  constructor(anchor, head) {
    this.main = { anchor, head, from: Math.min(anchor, head), to: Math.max(anchor, head), empty: anchor === head };
  }

  static single(anchor, head = anchor) {
    return new EditorSelection(anchor, head);
  }

  map(changes) {
    const { anchor, from, to, empty } = this.main;
    if (empty) return EditorSelection.single(changes.mapPos(from, -1));
    const [start, end] = [changes.mapPos(from, 1), changes.mapPos(to, -1)];
    return anchor === from ? new EditorSelection(start, end) : new EditorSelection(end, start);
  }
}

class Transaction {
  static addToHistory = Annotation.define();
  static remote = Annotation.define();

  constructor(startState, { changes = [], selection, annotations = [] }) {
    this.startState = startState;
    const list = [changes].flat().map(({ from, to = from, insert = "" }) => ({ from, to, insert: startState.linesOf(insert).join("\n") }));
    this.changes = new ChangeSet(list.sort((one, other) => one.from - other.from));
    this.newDoc = this.changes.apply(startState.doc);
    this.docChanged = list.some(({ from, to, insert }) => from < to || insert !== "");
    this.annotations = [annotations].flat();
    const { anchor, head = anchor } = selection?.main ?? selection ?? {};
    this.newSelection = selection === undefined ? startState.selection.map(this.changes) : new EditorSelection(anchor, head);
    this.state = startState.behind(this.newDoc, this.newSelection);
  }

  annotation(type) {
    return this.annotations.find((annotation) => annotation.type === type)?.value;
  }
}

class EditorState {
  static lineSeparator = facet();
  static transactionFilter = facet();

  constructor(doc, selection, extensions) {
    Object.assign(this, { doc, selection, extensions });
  }

  static create({ doc = "", selection = EditorSelection.single(0), extensions = [] }) {
    const empty = new EditorState(new Text(""), selection, [extensions].flat(Infinity));
    return empty.behind(new Text(empty.linesOf(doc.toString()).join("\n")), selection);
  }

  behind(doc, selection) {
    return new EditorState(doc, selection, this.extensions);
  }

  values(wanted) {
    return this.extensions.filter(({ facet: it }) => it === wanted).map(({ value }) => value);
  }

  linesOf(string) {
    return string.split(this.values(EditorState.lineSeparator)[0] ?? BREAKS);
  }

  update(...specs) {
    const spec = Object.assign({}, ...specs);
    let transaction = new Transaction(this, spec);
    if (spec.filter === false) return transaction;
    for (const filter of this.values(EditorState.transactionFilter)) {
      const left = filter(transaction);
      if (left !== transaction) transaction = new Transaction(this, Object.assign({}, ...[left].flat()));
    }
    return transaction;
  }
}

class ViewPlugin {
  constructor(create) {
    this.create = create;
  }

  static define(create) {
    return new ViewPlugin(create);
  }
}

class EditorView {
  #plugins;
  #isUpdating = false;

  constructor({ state }) {
    this.state = state;
    this.#plugins = state.extensions.filter((extension) => extension instanceof ViewPlugin).map((plugin) => plugin.create(this));
  }

  dispatch(...input) {
    const [first] = input;
    const transaction = first instanceof Transaction ? first : this.state.update(...input);
    if (transaction.startState !== this.state) throw new RangeError("the transaction is of another state");
    if (this.#isUpdating) throw new Error("an update is in progress");
    const update = { view: this, startState: this.state, state: transaction.state, transactions: [transaction], changes: transaction.changes, docChanged: transaction.docChanged };
    this.state = transaction.state;
    this.#isUpdating = true;
    for (const plugin of this.#plugins) plugin.update?.(update);
    this.#isUpdating = false;
  }

  destroy() {
    for (const plugin of this.#plugins) plugin.destroy?.();
  }
}

export const state = { Annotation, ChangeSet, EditorSelection, EditorState, Text, Transaction };
export const view = { EditorView, ViewPlugin };
