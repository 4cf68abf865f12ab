/** What the program's steps and edits are in an editor's document. */

import { cutAt, widthOf } from "../editing/steps.js";
import { marksOf, paragraphsOf, shownMark } from "./characters.js";
import { note, positionOf } from "./positions.js";

/**
 * @typedef {import("./characters.js").Node} Node
 * @typedef {import("./characters.js").EditorMark} EditorMark
 * @typedef {import("./local.js").Modules} Modules
 * @typedef {import("../editing/edits.js").Edit} Edit
 * @typedef {import("../editing/edits.js").Run} Run
 * @typedef {import("../editing/steps.js").Step} Step
 * @typedef {import("prosemirror-transform").Transform} Transform
 */

/**
 * Takes the program's steps over a document, from its start on: a place beside what goes then keeps its neighbour before it.
 * @param {Modules} modules
 * @param {Transform} change
 * @param {readonly Step[]} steps
 */
export function show(modules, change, steps) {
  const { doc } = change;
  for (const { step, old } of cutAt(steps, [])) {
    // All that was changed so far stands before it.
    const shift = change.doc.content.size - doc.content.size;
    const at = positionOf(doc, old) + shift;
    if ("insert" in step) {
      putIn(modules, change, at, [{ text: step.insert, marks: step.attributes }]);
      continue;
    }
    const end = positionOf(doc, old + widthOf(step)) + shift;
    if ("delete" in step) takeAway(modules, change, at, end);
    else if (step.attributes !== undefined) remark(modules, change, at, end, step.attributes);
  }
}

/**
 * The document behind steps.
 * @param {Modules} modules
 * @param {Node} doc
 * @param {readonly Step[]} steps
 * @returns {Node}
 */
export function behindSteps(modules, doc, steps) {
  const change = new modules.transform.Transform(doc);
  show(modules, change, steps);
  note(change.doc, doc);
  return change.doc;
}

/**
 * The document behind edits.
 * @param {Modules} modules
 * @param {Node} doc
 * @param {readonly {edit: Edit}[]} pending
 * @returns {Node}
 */
export function behind(modules, doc, pending) {
  const change = new modules.transform.Transform(doc);
  for (const { edit } of pending) make(modules, change, edit);
  note(change.doc, doc);
  return change.doc;
}

/**
 * @param {Modules} modules
 * @param {Transform} change
 * @param {Edit} edit
 */
function make(modules, change, edit) {
  const { doc } = change;
  if (edit.op === "insert") putIn(modules, change, positionOf(doc, edit.at), edit.runs);
  else if (edit.op === "delete") takeAway(modules, change, positionOf(doc, edit.at), positionOf(doc, edit.at + edit.count));
  else mark(change, positionOf(doc, edit.from), positionOf(doc, edit.to), edit);
}

/**
 * @param {Transform} change
 * @param {number} from
 * @param {number} to
 * @param {import("../editing/edits.js").Marking} edit
 */
function mark(change, from, to, { mark: { kind, ...rest }, isOn }) {
  const shown = shownMark(change.doc.type.schema, { kind, ...rest });
  if (shown === undefined) return;
  // A link is taken away whatever it leads to.
  if (isOn) change.addMark(from, to, shown);
  else change.removeMark(from, to, kind === "link" ? shown.type : shown);
}

/**
 * @param {Modules} modules
 * @param {Transform} change
 * @param {number} at
 * @param {readonly Run[]} runs
 */
function putIn({ model, transform }, change, at, runs) {
  const paragraphs = model.Fragment.from(paragraphsOf(change.doc.type.schema, runs));
  change.step(new transform.ReplaceStep(at, at, new model.Slice(paragraphs, 1, 1)));
}

/**
 * @param {Modules} modules
 * @param {Transform} change
 * @param {number} from
 * @param {number} to
 */
function takeAway({ model, transform }, change, from, to) {
  change.step(new transform.ReplaceStep(from, to, model.Slice.empty));
}

/**
 * Gives what stands between two positions just these marks.
 * @param {Modules} modules
 * @param {Transform} change
 * @param {number} from
 * @param {number} to
 * @param {import("../editing/marks.js").Held} marks
 */
function remark({ transform }, change, from, to, marks) {
  const { doc } = change;
  const wanted = marksOf(doc.type.schema, marks);
  doc.nodesBetween(from, to, (node, position) => {
    if (!node.isText) return;
    const [first, last] = [Math.max(from, position), Math.min(to, position + node.nodeSize)];
    for (const mark of node.marks) if (!staysIn(mark, wanted)) change.step(new transform.RemoveMarkStep(first, last, mark));
    for (const mark of wanted) if (!mark.isInSet(node.marks)) change.step(new transform.AddMarkStep(first, last, mark));
  });
}

/**
 * Whether a mark needn't be taken away: it is wanted, or what is wanted takes its place.
 * @param {EditorMark} mark
 * @param {readonly EditorMark[]} wanted
 */
function staysIn(mark, wanted) {
  return wanted.some((other) => other.eq(mark) || other.type.excludes(mark.type));
}
