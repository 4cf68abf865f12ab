// A stand-in for Quill 2, by the page of its interface: contents that end with a break, Deltas over them that count UTF-16
// units, events, and a selection that goes with what others change. A break has no inline formats, only `header`; an unknown
// format isn't taken.

const INLINE = ["bold", "italic", "link", "comments"];
const END = { insert: "\n", attributes: {} };

export class Quill {
  /** Each unit of the contents, or an embed, with its attributes. */
  #units = [END];
  #listeners = new Map();
  #selection = null;
  /** What the user did and nobody looked at yet. */
  #unseen = [];

  getLength() {
    return this.#units.length;
  }

  getContents(index = 0, length = this.getLength() - index) {
    return { ops: opsOf(this.#units.slice(index, index + length)) };
  }

  getText() {
    return this.#units.map(({ insert }) => (typeof insert === "string" ? insert : "")).join("");
  }

  setContents({ ops }, source = "api") {
    this.update();
    return this.#change([...ops, { delete: this.getLength() }], source);
  }

  updateContents({ ops }, source = "api") {
    // As the real one does: what the user did comes first, and its event too.
    this.update();
    return this.#change(ops, source);
  }

  insertText(index, text, formats, source = "api") {
    return this.updateContents({ ops: [{ retain: index }, { insert: text, attributes: formats }] }, source);
  }

  insertEmbed(index, type, value, source = "api") {
    return this.updateContents({ ops: [{ retain: index }, { insert: { [type]: value } }] }, source);
  }

  deleteText(index, length, source = "api") {
    return this.updateContents({ ops: [{ retain: index }, { delete: length }] }, source);
  }

  formatText(index, length, name, value, source = "api") {
    return this.updateContents({ ops: [{ retain: index }, { retain: length, attributes: { [name]: value || null } }] }, source);
  }

  /** The user does something that is looked at later. */
  later(ops) {
    this.#unseen.push(ops);
  }

  update(source = "user") {
    for (const ops of this.#unseen.splice(0)) this.#change(ops, source);
  }

  getSelection() {
    this.update();
    return this.#selection && { ...this.#selection };
  }

  setSelection(index, length = 0, source = "api") {
    this.#select(index === null ? null : { index, length }, source);
  }

  on(name, act) {
    this.#listeners.set(name, [...(this.#listeners.get(name) ?? []), act]);
    return this;
  }

  off(name, act) {
    this.#listeners.set(name, (this.#listeners.get(name) ?? []).filter((other) => other !== act));
    return this;
  }

  #change(ops, source) {
    const before = this.#units;
    this.#units = ended(composed(before, ops));
    const isSaid = isSame(composed(before, ops), this.#units);
    // What isn't as it was said is looked up.
    const delta = { ops: isSaid ? chopped(ops) : difference(before, this.#units) };
    if (delta.ops.length === 0) return delta;
    if (this.#selection !== null) this.#select(shifted(this.#selection, delta.ops, source !== "user"), "silent");
    this.#emit("text-change", [delta, { ops: opsOf(before) }, source]);
    return delta;
  }

  #select(range, source) {
    const old = this.#selection;
    const end = this.getLength() - 1;
    const index = range && Math.min(range.index, end);
    this.#selection = range && { index, length: Math.min(range.length, end - index) };
    if (JSON.stringify(old) !== JSON.stringify(this.#selection)) this.#emit("selection-change", [this.#selection, old, source]);
  }

  #emit(name, told) {
    for (const act of this.#listeners.get("editor-change") ?? []) act(name, ...told);
    if (told[2] !== "silent") for (const act of this.#listeners.get(name) ?? []) act(...told);
  }
}

function widthOf({ insert, delete: gone, retain }) {
  return insert === undefined ? gone ?? retain : 0;
}

/** The units of what comes. */
function unitsOf({ insert, attributes = {} }) {
  if (typeof insert !== "string") return [{ insert, attributes }];
  return insert.replace(/\r\n?/g, "\n").split("").map((unit) => ({ insert: unit, attributes }));
}

/** The units behind a Delta, as it says. */
function composed(units, ops) {
  const left = [...units];
  const made = ops.flatMap((op) => {
    if (op.insert !== undefined) return unitsOf(op);
    const those = left.splice(0, widthOf(op));
    if (op.delete !== undefined) return [];
    return op.attributes === undefined ? those : those.map(({ insert, attributes }) => ({ insert, attributes: without({ ...attributes, ...op.attributes }) }));
  });
  return [...made, ...left];
}

function without(attributes) {
  return Object.fromEntries(Object.entries(attributes).filter(([, value]) => value !== null && value !== undefined));
}

/** The units as the editor has them: with a break at the end, and each with the formats that it may have. */
function ended(units) {
  const whole = units[units.length - 1]?.insert === "\n" ? units : [...units, END];
  return whole.map(({ insert, attributes }) => {
    const names = insert === "\n" ? ["header"] : INLINE;
    return { insert, attributes: Object.fromEntries(names.filter((name) => attributes[name] != null).map((name) => [name, attributes[name]])) };
  });
}

function keyOf({ attributes }) {
  return JSON.stringify(Object.entries(attributes).sort());
}

function isSameUnit(one, other) {
  return one.insert === other.insert && keyOf(one) === keyOf(other);
}

function isSame(units, others) {
  return units.length === others.length && units.every((unit, index) => isSameUnit(unit, others[index]));
}

/** Units as the steps of a Delta that puts them in. */
function opsOf(units) {
  const ops = [];
  for (const { insert, attributes } of units) {
    const last = ops[ops.length - 1];
    if (typeof insert === "string" && typeof last?.insert === "string" && keyOf({ attributes: last.attributes ?? {} }) === keyOf({ attributes })) last.insert += insert;
    else ops.push(Object.keys(attributes).length === 0 ? { insert } : { insert, attributes });
  }
  return ops;
}

/** The Delta with one step for those that go on alike, and without what leaves all as it is at its end. */
function chopped(ops) {
  const left = [];
  for (const op of ops.filter(({ insert, delete: gone, retain }) => insert !== "" && retain !== 0 && gone !== 0)) {
    const last = left[left.length - 1];
    const isAlike = last?.retain !== undefined && op.retain !== undefined && JSON.stringify(last.attributes) === JSON.stringify(op.attributes);
    if (isAlike) left[left.length - 1] = { ...last, retain: last.retain + op.retain };
    else left.push(op);
  }
  while (left.length > 0 && left[left.length - 1].retain !== undefined && left[left.length - 1].attributes === undefined) left.pop();
  return left;
}

/** A Delta that leads from units to others: what is the same at both ends stays. */
function difference(before, after) {
  const most = Math.min(before.length, after.length);
  let front = 0;
  while (front < most && before[front].insert === after[front].insert) front += 1;
  let back = 0;
  while (back < most - front && before[before.length - 1 - back].insert === after[after.length - 1 - back].insert) back += 1;
  const kept = (from, to, shift) => before.slice(from, to).map((unit, index) => {
    const now = after[from + shift + index].attributes;
    // Only what is another one now.
    const names = Object.keys({ ...unit.attributes, ...now }).filter((name) => unit.attributes[name] !== now[name]);
    return names.length === 0 ? { retain: 1 } : { retain: 1, attributes: Object.fromEntries(names.map((name) => [name, now[name] ?? null])) };
  });
  const came = opsOf(after.slice(front, after.length - back));
  const ops = [...kept(0, front, 0), ...came, { delete: before.length - back - front }, ...kept(before.length - back, before.length, after.length - before.length)];
  return chopped(ops);
}

/** A selection behind a Delta: what comes at an end of it is after that, if `isBefore`. */
function shifted({ index, length }, ops, isBefore) {
  const [start, end] = [index, index + length].map((place) => {
    let at = place;
    let offset = 0;
    for (const op of ops) {
      if (offset > at) break;
      const size = op.insert === undefined ? widthOf(op) : typeof op.insert === "string" ? op.insert.length : 1;
      if (op.delete !== undefined) at -= Math.min(size, at - offset);
      else {
        if (op.insert !== undefined && (offset < at || !isBefore)) at += size;
        offset += size;
      }
    }
    return at;
  });
  return { index: start, length: end - start };
}
