// What somebody shows who is given a document's changes, counted as JavaScript's strings are: each unit with its marks.

/** Each unit of spans, with the marks that hold. */
export function unitsOf(spans) {
  return spans.flatMap(({ text, ...marks }) => text.split("").map((unit) => ({ unit, marks: named(marks) })));
}

/** The units behind what was told: a reset, or steps. */
export function behind(units, told) {
  if (told.reset !== undefined) return unitsOf(told.reset);
  const left = [...units];
  const made = told.steps.flatMap((step) => {
    if (step.insert !== undefined) return unitsOf([{ ...step.attributes, text: step.insert }]);
    const count = step.retain ?? step.delete;
    if (count > left.length) throw new Error("the steps are over a longer text");
    const those = left.splice(0, count);
    if (step.delete !== undefined) return [];
    return step.attributes === undefined ? those : those.map(({ unit }) => ({ unit, marks: named(step.attributes) }));
  });
  return [...made, ...left];
}

export function textOf(units) {
  return units.map(({ unit }) => unit).join("");
}

function named({ strong, em, link, comments }) {
  return JSON.stringify({ strong: strong ?? null, em: em ?? null, link: link ?? null, comments: comments ?? null });
}
