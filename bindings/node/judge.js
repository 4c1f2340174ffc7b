'use strict';
const { native, FIELD, newAnswer, utf8, bytes, failed, writtenBytes, reported } = require('./calls.js');
const { RowFault } = require('./errors.js');
const { STATUS, VERDICT } = require('./numbers.js');
const { Held } = require('./held.js');
const { KeptLines } = require('./lines.js');

const ROW_FAULTS = new Set(
  [STATUS.JSON_FAULT, STATUS.ROW_FAULT, STATUS.EVAL_FAULT, STATUS.LINE_TOO_LONG, STATUS.TOO_COSTLY],
);
const MOST = 2n ** 64n - 1n;

/** What judges rows by a filter. Reuse it: it caches how rows of that shape are read. */
class Judge extends Held {
  #filter;
  #answer = newAnswer();

  constructor(handle, filter) {
    super(handle);
    this.#filter = filter.retained();
  }

  setMoment(now) {
    const status = native.setMoment(this.handle, utf8(now, 'a moment'));
    if (status !== STATUS.OK) throw failed(status, now);
  }

  setBound(bound) {
    const most = BigInt(bound);
    if (most < 0n) throw new RangeError('a bound is not negative');
    native.setBound(this.handle, most < MOST ? most : MOST);
  }

  /** true, false, or null where the filter is null on the row, which is one JSON object. */
  verdict(row) {
    const answer = this.#answer;
    const status = native.judge(this.handle, bytes(row, 'a row'), answer);
    if (status !== STATUS.OK) throw this.#fault(status, answer, 1, Buffer.alloc(0));
    const verdict = answer[FIELD.verdict];
    return verdict === VERDICT.NO_TRUTH_VALUE ? null : verdict === VERDICT.TRUE;
  }

  /** Of rows, one JSON object a line, those on which the filter is true. */
  filterLines(rows) {
    const { handle } = this;
    const given = bytes(rows, 'rows');
    const answer = newAnswer();
    const kept = Buffer.allocUnsafe(given.length + 1);
    const status = native.filterLines(this.#filter.handle, handle, given, kept, answer);
    const text = kept.subarray(0, answer[FIELD.length]);
    if (status !== STATUS.OK) throw this.#fault(status, answer, answer[FIELD.number], text);
    return { text, rows: answer[FIELD.rows], kept: answer[FIELD.kept] };
  }

  #fault(status, answer, line, kept) {
    if (!ROW_FAULTS.has(status)) return failed(status);
    const path = writtenBytes((text, of) => native.path(this.handle, text, of));
    // the line may be counted from elsewhere, so the object has none
    const alone = Float64Array.from(answer);
    alone[FIELD.number] = 0;
    const [message, more] = reported(null, status, path, alone);
    return new RowFault(message, { ...more, path: path.toString('utf8'), line, kept });
  }

  /** A stream of lines in, of kept lines out. The first line at fault is its error, after what is kept before it. */
  stream() {
    return new KeptLines(this);
  }

  dispose() {
    super.dispose();
    this.#filter?.release();
    this.#filter = undefined;
  }
}

module.exports = { Judge };
