// What the binding uses of this module, for where its own types aren't installed.

export interface EditorView {
  state: any;
  dispatch(transaction: any): void;
  [other: string]: any;
}
