// What the binding uses of this module, for where its own types aren't installed.

import { Mark, Node, Slice } from "prosemirror-model";

export declare class Step {
  from: number;
  to: number;
  getMap(): { forEach(act: (oldStart: number, oldEnd: number, newStart: number, newEnd: number) => void): void; [other: string]: any };
  [other: string]: any;
}
export declare class Transform {
  constructor(doc: Node);
  doc: Node;
  docs: Node[];
  steps: Step[];
  docChanged: boolean;
  step(step: Step): this;
  addMark(from: number, to: number, mark: Mark): this;
  removeMark(from: number, to: number, mark: any): this;
  [other: string]: any;
}
export declare class ReplaceStep extends Step {
  constructor(from: number, to: number, slice: Slice);
}
export declare class AddMarkStep extends Step {
  constructor(from: number, to: number, mark: Mark);
  mark: Mark;
}
export declare class RemoveMarkStep extends Step {
  constructor(from: number, to: number, mark: Mark);
  mark: Mark;
}
