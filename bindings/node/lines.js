'use strict';
const { Transform } = require('node:stream');
const { RowFault } = require('./errors.js');

const LINE_FEED = 10;
const LINE_LIMIT = 1 << 20; // bytes: a longer line is at fault

/** A stream that judges whole lines as they come. */
class KeptLines extends Transform {
  #judge;
  #pending = []; // what follows the last line feed
  #length = 0;
  #linesBefore = 0;
  #fail; // reports a fault, once what was kept before it has been read

  constructor(judge) {
    super();
    this.#judge = judge;
  }

  _transform(chunk, _, done) {
    let end = chunk.lastIndexOf(LINE_FEED) + 1;
    if (end === 0 && this.#length + chunk.length > LINE_LIMIT) end = chunk.length;
    if (end > 0) {
      this.#take(chunk, end, done);
      return;
    }
    this.#pending.push(chunk);
    this.#length += chunk.length;
    done();
  }

  _flush(done) {
    this.#take(Buffer.alloc(0), 0, done);
  }

  #take(chunk, end, done) {
    const lines = Buffer.concat([...this.#pending, chunk.subarray(0, end)]);
    this.#pending = end < chunk.length ? [chunk.subarray(end)] : [];
    this.#length = chunk.length - end;
    try {
      const { text } = this.#judge.filterLines(lines);
      this.#linesBefore += lineFeeds(lines);
      done(null, text);
    } catch (error) {
      if (error instanceof RowFault) this.#failAfter(error, done);
      else done(error);
    }
  }

  #failAfter(fault, done) {
    fault.line += this.#linesBefore;
    const { kept } = fault;
    fault.kept = Buffer.alloc(0);
    this.push(kept);
    if (this.readableLength === 0) done(fault);
    else this.#fail = () => done(fault);
  }

  read(size) {
    const chunk = super.read(size);
    if (this.#fail !== undefined && this.readableLength === 0) {
      process.nextTick(this.#fail);
      this.#fail = undefined;
    }
    return chunk;
  }
}

function lineFeeds(lines) {
  let count = 0;
  for (let at = lines.indexOf(LINE_FEED); at >= 0; at = lines.indexOf(LINE_FEED, at + 1)) count++;
  return count;
}

module.exports = { KeptLines };
