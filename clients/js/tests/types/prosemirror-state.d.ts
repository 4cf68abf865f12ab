// What the binding uses of this module, for where its own types aren't installed.

import { Transform } from "prosemirror-transform";
import { EditorView } from "prosemirror-view";

export declare class Selection {
  from: number;
  to: number;
  anchor: number;
  empty: boolean;
  [other: string]: any;
}
export declare class TextSelection extends Selection {
  static create(doc: any, anchor: number, head?: number): TextSelection;
}
export declare class Transaction extends Transform {
  getMeta(key: any): any;
  setMeta(key: any, value: any): this;
  setSelection(selection: any): this;
  setStoredMarks(marks: any): this;
}
export declare class PluginKey {
  constructor(name?: string);
  getState(state: any): any;
}
export declare class Plugin {
  constructor(spec: {
    key?: PluginKey;
    state?: { init(config: any, state: any): any; apply(transaction: Transaction, value: any): any };
    filterTransaction?(transaction: Transaction): boolean;
    view?(view: EditorView): { update?(view: EditorView): void; destroy?(): void };
    [other: string]: any;
  });
  [other: string]: any;
}
