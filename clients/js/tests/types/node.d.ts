// What the client and the examples use of Node, for where its types aren't installed.

declare module "node:child_process" {
  interface Pipe {
    on(event: string, act: (it: any) => void): this;
    setEncoding(name: string): this;
    write(text: string): boolean;
    end(): void;
    destroy(): void;
  }
  interface Child {
    stdin: Pipe;
    stdout: Pipe;
    stderr: Pipe;
    on(event: "error", act: (error: Error) => void): this;
    on(event: "close", act: (status: number | null) => void): this;
    kill(signal: string): boolean;
  }
  function spawn(program: string, words: string[], options: { stdio: string[] }): Child;
}

declare module "node:crypto" {
  function randomUUID(): string;
}

declare module "node:timers/promises" {
  function setTimeout<T>(milliseconds: number, value?: T, options?: { signal?: AbortSignal }): Promise<T>;
}

declare var process: { argv: string[]; once(name: string, act: () => void): void };

declare module "node:net" {
  interface Socket {
    on(event: "error", act: (error: Error) => void): this;
    on(event: "data", act: (part: string) => void): this;
    on(event: "end" | "close", act: () => void): this;
    setEncoding(name: string): this;
    write(text: string): boolean;
    end(): void;
    destroy(): void;
  }
  function createConnection(options: { host: string; port: number; noDelay?: boolean; allowHalfOpen?: boolean }): Socket;
}
