// What the binding uses of this module, for where its own types aren't installed.

export interface Mark {
  type: MarkType;
  attrs: Record<string, any>;
  isInSet(marks: readonly Mark[]): boolean;
  addToSet(marks: readonly Mark[]): readonly Mark[];
  eq(other: Mark): boolean;
}
export interface MarkType {
  name: string;
  create(attrs?: Record<string, any>): Mark;
  [other: string]: any;
}
export interface Schema {
  marks: Record<string, MarkType>;
  nodes: Record<string, any>;
  [other: string]: any;
}
export interface Node {
  type: any;
  text?: string;
  marks: readonly Mark[];
  isText: boolean;
  nodeSize: number;
  content: Fragment;
  childCount: number;
  firstChild: Node | null;
  child(index: number): Node;
  forEach(act: (node: Node, offset: number, index: number) => void): void;
  nodesBetween(from: number, to: number, act: (node: Node, position: number) => boolean | void): void;
  [other: string]: any;
}
export declare class Fragment {
  size: number;
  static from(nodes: any): Fragment;
  forEach(act: (node: Node, offset: number, index: number) => void): void;
  [other: string]: any;
}
export declare class Slice {
  constructor(content: Fragment, openStart: number, openEnd: number);
  static empty: Slice;
  [other: string]: any;
}
