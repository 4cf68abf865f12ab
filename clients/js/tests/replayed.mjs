// Random histories over a binding (`schedule.mjs`), each of which happens twice on one schedule. First all letters are
// different, and a plain model follows them (`plain.mjs`). Then they are but three, so that whoever compares texts guesses
// wrong: that has to be the image of the first time at every turn. HISTORIES says how many there are, and HISTORY names one.

import assert from "node:assert/strict";
import { test } from "node:test";

import { Plain, shownBy } from "./plain.mjs";
import { play } from "./schedule.mjs";

const TURNS = 60;

/** The letters of the first time: each is another one, and every fifth has two units. */
function different(number) {
  return String.fromCodePoint((number % 5 === 4 ? 0x1f300 : 0x4e00) + number);
}

/** The letters of the second time. */
function equal(number) {
  if (number % 5 === 4) return "😀";
  return number % 3 === 0 ? "b" : "a";
}

/** A text of the first time as it is the second time. */
function image(text) {
  return text.replace(/[^\n]/gu, (letter) => {
    const point = letter.codePointAt(0);
    return equal(point - (point > 0xffff ? 0x1f300 : 0x4e00));
  });
}

/** What an editor shows, and its selection. */
function pictureOf(kind, editor, written) {
  const { selection, characters } = kind.pictured(editor);
  return JSON.stringify([...selection, characters.map(([text, ...marks]) => [written(text), ...marks])]);
}

/** All characters of a document, those that are gone too. */
function stored({ characters }, written) {
  return characters.map(({ text, ...rest }) => ({ text: written(text), ...rest }));
}

/** The plain model follows a history. Gives pictures of each turn and of the document, as they are to be the second time. */
function followed(kind, seed, how) {
  return play(kind, { seed, how, letter: different, turns: TURNS }, (document) => {
    const plain = new Plain(document, kind.KEYS, how !== "anew");
    const pictures = [];
    const watch = (editor) => {
      const before = shownBy(kind, editor, document);
      const acted = (marked) => plain.follow(editor, before, shownBy(kind, editor, document), marked);
      const calmed = (isLocal) => {
        if (!isLocal) plain.check(editor, before, shownBy(kind, editor, document));
        plain.note(editor);
        pictures.push(pictureOf(kind, editor, image));
      };
      return { acted, calmed };
    };
    const finish = () => {
      plain.finish();
      return { pictures, characters: stored(document, image) };
    };
    return { watch, finish };
  });
}

/** The same history with few letters: all is as it was the first time. */
function mirrored(kind, seed, how, { pictures, characters }) {
  const same = (text) => text;
  return play(kind, { seed, how, letter: equal, turns: TURNS }, (document) => {
    const watch = (editor, turn) => ({
      calmed: () => assert.equal(pictureOf(kind, editor, same), pictures[turn], "another picture where letters are equal"),
    });
    const finish = () => assert.deepEqual(stored(document, same), characters, "other characters came or went where letters are equal");
    return { watch, finish };
  });
}

function seeds(count) {
  const { HISTORY } = process.env;
  return HISTORY ? [Number(HISTORY)] : Array.from({ length: Math.ceil(count) }, (_, index) => index + 1);
}

/** The tests of a kind of editors, with so many histories unless HISTORIES says how many. */
export function testHistories(kind, some) {
  const count = Number(process.env.HISTORIES || some);

  test("histories are right, and the same where letters are equal", async () => {
    for (const seed of seeds(count * 0.4)) await mirrored(kind, seed, undefined, await followed(kind, seed));
  });

  test("so they are where connections are cut", async () => {
    for (const seed of seeds(count * 0.5)) await mirrored(kind, seed, "cut", await followed(kind, seed, "cut"));
  });

  test("nothing is lost or there twice where the file is opened anew", async () => {
    for (const seed of seeds(count * 0.1)) await followed(kind, seed, "anew");
  });
}
