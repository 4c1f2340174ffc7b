'use strict';
const { native } = require('./calls.js');
const { ODataError } = require('./errors.js');

/** A handle with the count of its users: its owner, and the judges that read a filter. The last one frees it. */
class Shared {
  #users = 1;

  constructor(handle) {
    this.handle = handle;
  }

  retained() {
    this.#users++;
    return this;
  }

  release() {
    this.#users--;
    if (this.#users === 0) native.free(this.handle);
  }
}

/** What a schema, a type, a filter and a judge have in common: a handle, until it is disposed of or collected. */
class Held {
  #shared;

  constructor(handle) {
    this.#shared = new Shared(handle);
  }

  get shared() {
    if (this.#shared === undefined) throw new ODataError(`the ${this.constructor.name} is closed`, { code: 'Closed' });
    return this.#shared;
  }

  get handle() {
    return this.shared.handle;
  }

  /** Frees what is held. A second time does nothing. */
  dispose() {
    this.#shared?.release();
    this.#shared = undefined;
  }
}

// `using` of TypeScript 5.2 and later, and of newer versions of Node
if (Symbol.dispose !== undefined) {
  Held.prototype[Symbol.dispose] = function dispose() {
    this.dispose();
  };
}

module.exports = { Held };
