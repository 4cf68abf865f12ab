// A document of the model: all characters that were ever put in, in the order of the text, each with the numbers of
// operations at which it came and went, and with its marks by the number from which on they hold. What a character that is
// put in comes to have of marks is near what the program does, not the same.

const KINDS = ["strong", "em", "link", "comment"];
const GREATEST = 2 ** 32 - 1;

/** How many characters one edit puts in or takes away, and how many places one answer tells. */
const MOST = 256;
const FOUND = 1_024;

/** Each request answers its fields, none for an edit, or the number of its refusal. */
export class Model {
  /** How many operations there are. */
  rev = 0;
  /** The characters, those that are gone too. */
  characters = [];
  /** Since when changes are told, except for all of them. */
  #oldest = 0;
  /** The characters that are shown now: in a long text nobody goes over all of them at each key. */
  #shown = [];

  /** Forgets what the changes were up to now, as a file does that is opened anew. */
  forget() {
    this.#oldest = this.rev;
  }

  /** What `putBack` takes, to undo what was made since. */
  kept() {
    return { rev: this.rev, characters: this.characters.map((character) => ({ ...character, marks: [...character.marks] })) };
  }

  putBack(kept) {
    Object.assign(this, kept);
    this.#shown = this.characters.filter((character) => isShown(character, this.rev));
  }

  /** The characters that are shown at a number of operations. */
  at(rev) {
    return rev === this.rev ? [...this.#shown] : this.characters.filter((character) => isShown(character, rev));
  }

  insert({ at, text }) {
    if (typeof text !== "string" || text === "" || !isPlace(at)) return 4;
    const added = [...text];
    if (added.some((character) => /\p{Surrogate}/u.test(character))) return 2;
    const shown = this.at(this.rev);
    if (at > shown.length) return 5;
    if (added.length > MOST) return 7;
    const [before, after] = [shown[at - 1], shown[at]];
    const marks = between(before ? marksOf(before) : {}, after ? marksOf(after) : {});
    const run = added.map((character) => ({ text: character, came: (this.rev += 1), gone: Infinity, marks: [{ rev: 0, marks }] }));
    this.characters.splice(this.characters.indexOf(before) + 1, 0, ...run);
    this.#shown.splice(at, 0, ...run);
  }

  delete({ at, count }) {
    if (!isPlace(at) || !isPlace(count) || count === 0) return 4;
    const shown = this.at(this.rev);
    if (at + count > shown.length) return 5;
    if (count > MOST) return 7;
    for (const character of this.#shown.splice(at, count)) character.gone = this.rev += 1;
  }

  mark(request) {
    return this.#mark(request, true);
  }

  unmark(request) {
    return this.#mark(request, false);
  }

  #mark({ from, to, kind, url, id }, isGiven) {
    if (!isPlace(from) || !isPlace(to) || !KINDS.includes(kind)) return 4;
    if ((kind === "comment") !== (id !== undefined)) return 4;
    if ((kind === "link" && isGiven) !== (url !== undefined)) return 4;
    const shown = this.at(this.rev);
    if (from >= to || to > shown.length) return 5;
    this.rev += 1;
    for (const character of shown.slice(from, to)) {
      const marks = marked(marksOf(character), kind, isGiven, url ?? id);
      character.marks.push({ rev: this.rev, marks });
    }
  }

  text({ at_rev: rev = this.rev } = {}) {
    return this.#refusalOf(rev) ?? { rev, text: this.at(rev).map((character) => character.text).join("") };
  }

  /** Why it can't be told as it was. */
  #refusalOf(rev) {
    if (!isPlace(rev) || rev > GREATEST) return 4;
    return rev > this.rev ? 6 : undefined;
  }

  spans({ at_rev: rev = this.rev } = {}) {
    const refusal = this.#refusalOf(rev);
    if (refusal !== undefined) return refusal;
    const spans = [];
    for (const character of this.at(rev)) {
      const marks = marksOf(character, rev);
      const last = spans[spans.length - 1];
      if (last !== undefined && isSame(last.marks, marks)) last.text += character.text;
      else spans.push({ marks, text: character.text });
    }
    return { rev, spans: spans.map(({ marks, text }) => ({ ...marks, text })) };
  }

  find({ text, from = 0, rev }) {
    const sought = typeof text === "string" ? [...text] : [];
    if (sought.length < 1 || sought.length > MOST || !isPlace(from) || rev !== undefined) return 4;
    const shown = this.at(this.rev).map((character) => character.text);
    const places = [];
    for (let at = from; at <= shown.length - sought.length && places.length < FOUND; at += 1) {
      if (sought.every((character, index) => shown[at + index] === character)) places.push(at);
    }
    return { places };
  }

  /** Not as the program does it: the marks are left out, and nothing is escaped. */
  export({ to, rev, breaks = false }) {
    if (!["text", "markdown", "html"].includes(to) || rev !== undefined || typeof breaks !== "boolean") return 4;
    const { text } = this.text();
    if (to === "text") return { text };
    const [one, parted] = to === "html" ? ["\n", "\n</p><p>"] : ["\\\n", "\n\n"];
    const page = text.replaceAll("\n", breaks ? one : parted);
    return { text: to === "html" ? `<p>${page}</p>\n` : `${page}\n` };
  }

  changes({ since, rev }) {
    if (!isPlace(since) || since > GREATEST || rev !== undefined) return 4;
    if (since > this.rev || (since > 0 && since < this.#oldest)) return 6;
    const steps = [];
    const add = (step) => isJoined(steps[steps.length - 1], step) || steps.push(step);
    // Most of a long text is as it was.
    let same = 0;
    for (const character of this.characters) {
      if (isAsBefore(character, since)) {
        same += 1;
        continue;
      }
      const step = stepOf(character, since);
      if (step === undefined) continue;
      if (same > 0) add({ retain: same });
      same = 0;
      add(step);
    }
    const last = steps[steps.length - 1];
    if (last?.retain !== undefined && last.attributes === undefined) steps.pop();
    return { changes: steps };
  }
}

function isPlace(number) {
  return Number.isInteger(number) && number >= 0;
}

function isShown({ came, gone }, rev) {
  return came <= rev && rev < gone;
}

/** The marks of a character at a number of operations, of now unless it is given. */
export function marksOf({ marks }, rev = Infinity) {
  return marks.findLast((entry) => entry.rev <= rev).marks;
}

function isSame(marks, others) {
  return marks === others || JSON.stringify(marks) === JSON.stringify(others);
}

/** Marks with only the keys that hold, in one order. */
function held(comments, em, link, strong) {
  return { ...(comments.length > 0 && { comments }), ...(em && { em }), ...(link && { link }), ...(strong && { strong }) };
}

/** What a character between two others has: strong and em go on, links and comments only where both have them. */
function between(before, after) {
  const { comments = [], em, link, strong } = before;
  const shared = comments.filter((id) => after.comments?.includes(id));
  return held(shared, em, link === after.link ? link : undefined, strong);
}

/** The marks with one of a kind, or without it. `value` is the URL of a link, or the id of a comment. */
function marked({ comments = [], em, link, strong }, kind, isGiven, value) {
  if (kind === "strong") return held(comments, em, link, isGiven);
  if (kind === "em") return held(comments, isGiven, link, strong);
  if (kind === "link") return held(comments, em, isGiven && value, strong);
  const others = comments.filter((id) => id !== value);
  return held(isGiven ? [...others, value].sort() : others, em, link, strong);
}

/** Whether a character was shown then, and is now, with the same marks. */
function isAsBefore({ came, gone, marks }, since) {
  return came <= since && gone === Infinity && marks[marks.length - 1].rev <= since;
}

/** What became of a character since then: a step of its own, or nothing if it isn't shown at either end. */
function stepOf(character, since) {
  const isThere = character.gone === Infinity;
  const marks = marksOf(character);
  if (!isShown(character, since)) {
    if (!isThere) return undefined;
    return Object.keys(marks).length === 0 ? { insert: character.text } : { insert: character.text, attributes: marks };
  }
  if (!isThere) return { delete: 1 };
  if (isSame(marks, marksOf(character, since))) return { retain: 1 };
  return { retain: 1, attributes: { comments: null, em: null, link: null, strong: null, ...marks } };
}

/** Puts a step to the one before it, if both are of one sort. */
function isJoined(last, step) {
  const sort = Object.keys(step)[0];
  if (last?.[sort] === undefined || !isSame(last.attributes, step.attributes)) return false;
  last[sort] += step[sort];
  return true;
}
