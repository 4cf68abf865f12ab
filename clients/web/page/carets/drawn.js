/** Others' carets as they are drawn in an editor, with their names, and what they have selected. They are no part of the document. */

import { Plugin, PluginKey } from "prosemirror-state";
import { Decoration, DecorationSet } from "prosemirror-view";

import { turnNames } from "./names.js";
import { carried, stayed } from "./spots.js";

/**
 * A caret that is drawn; `carried` is when what others typed took it along.
 * @typedef {import("./spots.js").Spot & {number: number, name: string, colour: number, carried: number}} DrawnCaret
 */

const key = new PluginKey("others' carets");

/** After all that stands at the same position, one's own caret among it. */
const SIDE = 10;

export function drawnCarets() {
  return new Plugin({
    key,
    state: {
      init: () => ({ carets: [], decorations: DecorationSet.empty }),
      apply: (transaction, drawn) => {
        const given = transaction.getMeta(key);
        if (given === undefined && (!transaction.docChanged || drawn.carets.length === 0)) return drawn;
        const carets = given ?? drawn.carets.map((caret) => followed(caret, transaction));
        return { carets, decorations: DecorationSet.create(transaction.doc, carets.flatMap(decorationsOf)) };
      },
    },
    props: { decorations: (state) => key.getState(state).decorations },
    view: turnNames,
  });
}

/**
 * The carets that are drawn.
 * @returns {DrawnCaret[]}
 */
export function caretsIn(state) {
  return key.getState(state).carets;
}

/**
 * Draws these carets, and no others.
 * @param {DrawnCaret[]} carets
 */
export function drawCarets(carets) {
  return (state, dispatch) => {
    dispatch(state.tr.setMeta(key, carets));
    return true;
  };
}

/**
 * A caret after a transaction. Whoever types somewhere has the caret there, so it goes along with what others type at it.
 * What is typed here comes after it.
 * @param {DrawnCaret} caret
 * @param {import("prosemirror-state").Transaction} transaction
 */
export function followed(caret, transaction) {
  const isOthers = transaction.getMeta("addToHistory") === false;
  const along = isOthers ? carried(caret, transaction.mapping) : undefined;
  return along === undefined ? stayed(caret, transaction.mapping) : { ...along, carried: transaction.time };
}

/** @param {DrawnCaret} caret */
function decorationsOf({ number, name, colour, head, tail }) {
  const drawn = Decoration.widget(head, () => elementOf(name, colour), { key: `${number} ${name} ${colour}`, side: SIDE });
  if (head === tail) return [drawn];
  const [from, to] = head < tail ? [head, tail] : [tail, head];
  return [drawn, Decoration.inline(from, to, { class: `theirs person-${colour}` })];
}

/** Its name is the style's, so that it is no text here: a screen reader would read it with each line. */
function elementOf(name, colour) {
  const element = document.createElement("span");
  element.className = `caret person-${colour}`;
  element.dataset.name = name;
  element.setAttribute("aria-hidden", "true");
  return element;
}
