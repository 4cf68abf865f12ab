// What the binding uses of @codemirror/view, for where its own types aren't installed.

import { EditorState, Transaction } from "@codemirror/state";

export declare class EditorView {
  constructor(config?: { state?: EditorState; parent?: any; [other: string]: any });
  state: EditorState;
  dispatch(...specs: any[]): void;
  destroy(): void;
  [other: string]: any;
}
export declare class ViewPlugin<V> {
  static define<V extends { update?(update: ViewUpdate): void; destroy?(): void }>(create: (view: EditorView) => V, spec?: any): ViewPlugin<V>;
  [other: string]: any;
}
export declare class ViewUpdate {
  transactions: readonly Transaction[];
  docChanged: boolean;
  [other: string]: any;
}
