// What a program in TypeScript may write, and what it may not: `@ts-expect-error` is an error itself if the line below it is none.

import { EM, Following, Reading, STRONG, Session, Stale, applied, connect, delta, follow, init, link, open, watch, watchMany } from "peritext";
import type { Change, DocumentCounts, Edit, EditOptions, Form, Found, Lasting, Mark, PlacedEdit, Reset, Room, Settled, Span, Step, Transport, Version } from "peritext";
import { bind as bindText } from "peritext/codemirror";
import { bind } from "peritext/prosemirror";
import { bind as bindContents } from "peritext/quill";
import * as codemirrorState from "@codemirror/state";
import * as codemirrorView from "@codemirror/view";
import * as model from "prosemirror-model";
import * as state from "prosemirror-state";
import * as transform from "prosemirror-transform";

export async function edits(signal: AbortSignal): Promise<number> {
  const replica: string = await init("file", { program: "peritext" });
  const session: Session = await open("file", { timeout: null, signal });
  const document = session.document(1);
  const rev: number = await document.insert(0, replica, { signal });
  const given: EditOptions = { rev, token: replica, signal };
  await document.insert(0, "x", given);
  await document.insert(0, "x", rev, { token: replica });
  await document.mark(0, 1, STRONG, rev, replica, { signal });
  await document.unmark(0, 1, link(), { rev });
  const list: Edit[] = [{ op: "delete", at: 4, count: 3 }, { op: "insert", at: 4, text: "TWO" }, { op: "mark", from: 4, to: 7, ...EM }];
  await document.action(list, { parted: true, signal });
  const anchors: Lasting[] = await document.anchors([1, 2], "next", { rev });
  await document.insert(anchors[0], "x", { signal });
  await document.mark("start", anchors[1], STRONG);
  const placed: PlacedEdit[] = [...list, { op: "insert", at: "end", text: "!" }, { op: "unmark", from: 0, to: `a7@${replica}`, kind: "em" }];
  await document.action(placed);
  const places: (number | null)[] = await document.places(anchors, rev, { signal });
  const { peers, sessions } = await session.peers({ signal });
  const counted: DocumentCounts[] = await session.documents({ signal });
  const room: Room = await session.room({ signal });
  const free: number = room.bytesLimit - room.bytes + counted.flatMap(({ writers }) => writers).length;
  // @ts-expect-error: a text is no number, nor any place that lasts
  await document.insert("0", "x");
  // @ts-expect-error: a reading counts in its own text
  await (await document.read()).action(placed);
  // @ts-expect-error: there is no such option
  await document.insert(0, "x", { reverse: 3 });
  // @ts-expect-error: a controller is no signal
  await document.text({ signal: new AbortController() });
  // @ts-expect-error: a mark has a kind
  const mark: Mark = { strong: true };
  // @ts-expect-error: an edit has all its fields
  await document.action([{ op: "insert", at: 0 }]);
  // @ts-expect-error: a place stays with one of two neighbours
  await document.anchor(1, "left");
  await session.close();
  return peers.length + sessions + places.length + free + (mark ? 1 : 0);
}

export async function reads(port: number): Promise<string> {
  const session = await connect(port, { patience: null, retry: 5_000 });
  let reading: Reading = await session.document(1).read();
  reading = await reading.action([{ op: "delete", at: 0, count: 1 }], { parted: false });
  const { steps, rev } = await session.document(1).changes(reading.rev).catch((error) => {
    if (error instanceof Stale && error.number === 6) return session.document(1).changes(0);
    throw error;
  });
  const spans: Span[] = applied([{ text: reading.text }], steps);
  const units: Step[] = delta(reading.text, steps);
  for await (const number of watch(port, 1, { retry: null })) if (number > rev) break;
  return `${spans.map(({ text, link }) => link ?? text)}${units.length}`;
}

export async function finds(port: number, signal: AbortSignal): Promise<string> {
  const session = await connect(port);
  const document = session.document(1);
  const found: Found = await document.find("fox", { from: 3, signal });
  await document.delete(found.places[0], 3, found.rev);
  const indexes: number[] = (await document.read()).find("fox");
  const form: Form = "markdown";
  const page: string = await document.export(form);
  await document.export(form, { breaks: true, signal });
  // @ts-expect-error: it is true or false
  await document.export(form, { breaks: "yes" });
  // @ts-expect-error: there is no such form
  await document.export("pdf");
  const versions: Version[] = await document.versions(100, { signal });
  const was: string = await document.text({ atRev: versions[0].rev, signal });
  const marked: Span[] = await document.spans({ atRev: 0 });
  // @ts-expect-error: each is of at most so many operations
  await document.versions();
  // @ts-expect-error: a reading is of now
  await document.read({ atRev: 0 });
  // @ts-expect-error: it is a list of numbers, or all
  watchMany(port, "every");
  for await (const told of watchMany(port, [1, 2], { retry: null })) {
    const { doc, rev }: Settled = told;
    if (doc + rev > 100) break;
  }
  return `${page}${indexes}${was}${marked.length}`;
}

export async function shows(port: number, signal: AbortSignal): Promise<void> {
  const shown: Following = follow(port, 1, { signal });
  for await (const told of shown) {
    const change: Reset | Change = told;
    if ("reset" in change) console.log(change.reset, change.text);
    else console.log(change.steps, shown.spans);
  }
}

export async function binds(schema: model.Schema, session: Session): Promise<number> {
  const binding = await bind({ model, state, transform }, schema, session.document(1), { onError: (error: Error) => console.error(error) });
  const plugin: state.Plugin = binding.plugin;
  // @ts-expect-error: a session is no document
  await binding.resume(session);
  await binding.settled();
  return plugin === undefined ? 0 : binding.waiting;
}

/** The part of Quill's own types that counts. */
declare class Delta {
  constructor(ops?: { ops: object[] } | object[]);
  ops: { insert?: string | Record<string, unknown>; delete?: number; retain?: number | Record<string, unknown>; attributes?: { [name: string]: unknown } }[];
  compose(other: Delta): Delta;
}
type Source = "api" | "user" | "silent";
interface Quill {
  on(event: "editor-change", act: (...told: any[]) => void): unknown;
  on(event: string, act: (...told: unknown[]) => void): unknown;
  off(event: string, act: (...told: any[]) => void): unknown;
  update(source?: Source): Delta | undefined;
  getLength(): number;
  getContents(index?: number, length?: number): Delta;
  setContents(delta: Delta | object[], source?: Source): Delta;
  updateContents(delta: Delta | object[], source?: Source): Delta;
  getSelection(focus?: boolean): { index: number; length: number } | null;
  setSelection(range: { index: number; length: number } | null, source?: Source): void;
  setSelection(index: number, length?: number, source?: Source): void;
}

export async function bindsOthers(quill: Quill, session: Session): Promise<number> {
  const contents = await bindContents(quill, session.document(1), { formats: ["bold", "comments"], onError: (error: Error) => console.error(error) });
  await contents.follow(watch(7001, 1));
  contents.close();
  // @ts-expect-error: there is no such format
  await bindContents(quill, session.document(1), { formats: ["header"] });
  // @ts-expect-error: what is known is the binding's own
  contents.known();
  const text = await bindText({ state: codemirrorState, view: codemirrorView }, session.document(2));
  const state = codemirrorState.EditorState.create({ doc: text.doc, extensions: [text.extension] });
  await text.settled();
  return state.doc.length + text.waiting + contents.rev;
}

export const transport: Transport = { send() {}, close() {} };
