// What types.ts needs of @types/node, which Debian has not for this version of Node.
declare module 'node:stream' {
  class Transform {
    pipe<T>(target: T): T;
  }
}
declare const process: {
  stdin: { pipe<T>(target: T): T };
  stdout: object;
};
declare const console: { log(...all: unknown[]): void };
