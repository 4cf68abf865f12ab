// An editor's document as its characters, read without the client's sources: one for each of a paragraph, and a break between two paragraphs.

/** Each character with the editor's marks, and its position. */
export function charactersOf(doc) {
  const characters = [];
  doc.forEach((paragraph, start, index) => {
    if (index > 0) characters.push({ text: "\n", marks: [], position: start - 1 });
    paragraph.forEach((node, offset) => {
      let position = start + 1 + offset;
      for (const text of node.text) {
        characters.push({ text, marks: node.marks, position });
        position += text.length;
      }
    });
  });
  return characters;
}

/** How many characters begin before a position. */
export function placeOf(characters, position) {
  return characters.filter((character) => character.position < position).length;
}

/** The position before a character, or at the end. */
export function positionOf(characters, place) {
  const last = characters[characters.length - 1];
  if (place < characters.length) return characters[place].position;
  return last === undefined ? 1 : last.position + (last.text === "\n" ? 2 : last.text.length);
}
