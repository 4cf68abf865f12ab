// What the binding uses of @codemirror/state, for where its own types aren't installed.

export declare class Text {
  length: number;
  toString(): string;
  eq(other: Text): boolean;
  [other: string]: any;
}
export declare class ChangeSet {
  iterChanges(act: (fromA: number, toA: number, fromB: number, toB: number, inserted: Text) => void, individual?: boolean): void;
  [other: string]: any;
}
export declare class AnnotationType<T> {
  of(value: T): any;
}
export declare class Annotation<T> {
  static define<T>(): AnnotationType<T>;
  value: T;
}
export declare class Transaction {
  static addToHistory: AnnotationType<boolean>;
  static remote: AnnotationType<boolean>;
  startState: EditorState;
  changes: ChangeSet;
  docChanged: boolean;
  newDoc: Text;
  annotation<T>(type: AnnotationType<T>): T | undefined;
  [other: string]: any;
}
export declare class EditorState {
  static lineSeparator: { of(value: string): any };
  static transactionFilter: { of(filter: (transaction: Transaction) => any): any };
  doc: Text;
  update(...specs: any[]): Transaction;
  static create(config?: { doc?: string | Text; extensions?: any; [other: string]: any }): EditorState;
  [other: string]: any;
}
export type Extension = any;
