// Edits by chance.

const COMMENTS = [1, 2].map((number) => `00000000-0000-4000-8000-0000000000c${number}`);
const MARKS = [{ kind: "strong" }, { kind: "em" }, { kind: "link", url: "x:y" }, ...COMMENTS.map((id) => ({ kind: "comment", id }))];

/** The fields of an edit of a text of so many characters: it puts this one in, takes up to four characters away, or changes a mark. */
export function chanceEdit(below, length, text) {
  const [from, to] = [below(length + 1), below(length + 1)].sort((one, other) => one - other);
  const { url, ...mark } = MARKS[below(MARKS.length)];
  const kind = from < to ? below(5) : 0;
  if (kind === 1) return { op: "delete", at: from, count: Math.min(to - from, 4) };
  if (kind === 2) return { op: "unmark", from, to, ...mark };
  if (kind === 3) return { op: "mark", from, to, ...mark, url };
  return { op: "insert", at: from, text };
}
