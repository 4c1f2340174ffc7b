'use strict';
/* The calls of include/odfilter.h over an instance of odfilter.wasm, in any host of WebAssembly.
 *
 *     const { instance } = await WebAssembly.instantiate(bytes);
 *     const odfilter = odfilterCalls(instance);
 *     const answer = odfilter.newAnswer();
 *     const filter = odfilter.check(type, new TextEncoder().encode('Rating ge 3'), answer);
 *
 * Their names are the header's: odfilter_check_url is checkUrl. Bytes and buffers are Uint8Arrays; a buffer is written
 * as far as a text goes. A call that makes a handle returns it, or the number of its status, and every other call the
 * number of its status. An answer is an object with the header's fields, as pieceStart. A handle is freed by `free`,
 * once.
 *
 * In a page this script stands after numbers.js. */
function odfilterCalls(instance) {
  const numbers = typeof module === 'undefined' ? odfilterNumbers : require('./numbers.js');
  const { memory, allocate, release, ...library } = instance.exports;
  const { STATUS, ANSWER, ANSWER_SIZE } = numbers, PLACE_SIZE = 8;
  const NAMES = Object.keys(ANSWER), [OFFSETS, SIZES] = [0, 1].map((at) => Object.values(ANSWER).map((it) => it[at]));
  let scratch = 0, scratchSize = 0;

  const newAnswer = () => Object.fromEntries(NAMES.map((name) => [name, 0]));
  const aligned = (size) => Math.ceil(size / 8) * 8;

  /** Memory of the module for what one call is given, which the next call has again; 0 where there is none. */
  function scratchOf(size) {
    if (size > scratchSize) {
      release(scratch);
      scratchSize = Math.max(size, 4096);
      scratch = allocate(scratchSize);
      if (!scratch) scratchSize = 0;
    }
    return scratch;
  }

  function readAnswer(start, answer) {
    const view = new DataView(memory.buffer, start, ANSWER_SIZE);
    for (let field = 0; field < NAMES.length; field++) {
      const at = OFFSETS[field], isShort = SIZES[field] === 4;
      answer[NAMES[field]] = isShort ? view.getUint32(at, true) : Number(view.getBigUint64(at, true));
    }
  }

  function writeAnswer(at, answer) {
    const view = new DataView(memory.buffer, at, ANSWER_SIZE);
    for (let field = 0; field < NAMES.length; field++) {
      if (SIZES[field] === 4) view.setUint32(OFFSETS[field], answer[NAMES[field]], true);
      else view.setBigUint64(OFFSETS[field], BigInt(answer[NAMES[field]]), true);
    }
  }

  /** How many bytes of the module's memory something takes that is given. */
  function sizeOf(kind, it) {
    if (kind === 'b' || kind === 'w') return aligned(it.length) + 8;
    if (kind === 'a' || kind === 'f') return ANSWER_SIZE;
    return kind === 'm' ? PLACE_SIZE : 0;
  }

  /** Puts what is given into the module's memory from an address on, and returns what the call is given for it. */
  function put(kind, it, at) {
    if (kind === 'h') return it === null ? 0 : it.address;
    if (kind === 'u') return BigInt(it);
    if (kind === 'n') return it;
    if (kind === 'b' || kind === 'w') {
      new Uint8Array(memory.buffer, at, it.length).set(it);
      // a struct of an address and a length is passed as two numbers of 64 bits, as on x86-64
      return BigInt(at);
    }
    if (kind === 'f') writeAnswer(at, it);
    else if (kind === 'm') new DataView(memory.buffer).setBigUint64(at, 0n, true);
    return at;
  }

  function call(called, kinds, given) {
    let size = 0, made = null;
    for (let number = 0; number < kinds.length; number++) size += sizeOf(kinds[number], given[number]);
    const start = scratchOf(size), words = [];
    if (!start) return STATUS.MEMORY;
    for (let number = 0, at = start; number < kinds.length; number++) {
      words.push(put(kinds[number], given[number], at));
      if (kinds[number] === 'b' || kinds[number] === 'w') words.push(BigInt(given[number].length));
      at += sizeOf(kinds[number], given[number]);
    }
    const status = called(...words);
    for (let number = 0, at = start; number < kinds.length; number++) {
      const kind = kinds[number], it = given[number];
      if (kind === 'a' && status !== STATUS.NULL) readAnswer(at, it);
      if (kind === 'w') it.set(new Uint8Array(memory.buffer, at, it.length));
      if (kind === 'm' && status === STATUS.OK) made = { address: addressAt(at) };
      at += sizeOf(kind, it);
    }
    return made ?? status;
  }

  const addressAt = (at) => Number(new DataView(memory.buffer).getBigUint64(at, true));
  const calls = { newAnswer, STATUS, VERDICT: numbers.VERDICT, SCHEMA_NAMES: numbers.SCHEMA_NAMES };
  for (const [called, kinds] of Object.entries(numbers.CALLS)) {
    const name = called.replace(/_(.)/g, (_, letter) => letter.toUpperCase());
    // a variable of a handle is no parameter: the handle is returned
    const variable = kinds.indexOf('m'), count = kinds.length - (variable < 0 ? 0 : 1);
    calls[name] = (...given) => {
      if (given.length !== count) throw new TypeError(`${name} is given ${count} arguments`);
      if (variable >= 0) given.splice(variable, 0, null);
      return call(library[`odfilter_${called}`], kinds, given);
    };
  }
  calls.free = (handle) => {
    const at = scratchOf(PLACE_SIZE);
    if (!at) return STATUS.MEMORY;
    new DataView(memory.buffer).setBigUint64(at, BigInt(handle.address), true);
    handle.address = 0;
    return library.odfilter_free(at);
  };
  return calls;
}
if (typeof module !== 'undefined') module.exports = { odfilterCalls };
