'use strict';
const { native, FIELD, newAnswer, utf8, failed, written } = require('./calls.js');
const { STATUS, FORM, STATEMENT, VALUE } = require('./numbers.js');
const { Held } = require('./held.js');
const { Judge } = require('./judge.js');

// the forms of each dialect: a column for each property, and one column with the row as JSON
const FORMS = {
  postgresql: [FORM.POSTGRESQL_COLUMNS, FORM.POSTGRESQL_JSON],
  sqlite: [FORM.SQLITE_COLUMNS, FORM.SQLITE_JSON],
};

/** A checked filter. Of `checkUrl`, `piece` and `value` are where its option and that one's value stand in the query. */
class Filter extends Held {
  constructor(handle, text, piece, value) {
    super(handle);
    Object.assign(this, { text, piece, value });
  }

  get canonical() {
    return written((text, answer) => native.canonical(this.handle, text, answer));
  }

  get explanation() {
    return written((text, answer) => native.explain(this.handle, text, answer));
  }

  get propertyPaths() {
    const text = written((paths, answer) => native.propertyPaths(this.handle, paths, answer));
    return text.split('\n').slice(0, -1);
  }

  get needsMoment() {
    return this.#number(native.needsMoment) === 1;
  }

  get nodeCount() {
    return this.#number(native.nodeCount);
  }

  get lambdaDepth() {
    return this.#number(native.lambdaDepth);
  }

  #number(call) {
    const answer = newAnswer();
    const status = call(this.handle, answer);
    if (status !== STATUS.OK) throw failed(status);
    return answer[FIELD.number];
  }

  /** A judge by this filter: `now` is the moment of now(), `bound` what the filter may cost on a row of `verdict`. */
  judge({ now, bound } = {}) {
    const made = native.newJudge(this.handle);
    if (typeof made === 'number') throw failed(made);
    const judge = new Judge(made, this.shared);
    try {
      if (now !== undefined) judge.setMoment(momentOf(now));
      if (bound !== undefined) judge.setBound(bound);
    } catch (error) {
      judge.dispose();
      throw error;
    }
    return judge;
  }

  /** The filter as conditions of SQL over the rows of a table. */
  sql(dialect, { columns = {}, document, now } = {}) {
    if (!Object.hasOwn(FORMS, dialect)) throw new RangeError(`a dialect is postgresql or sqlite, not ${dialect}`);
    const form = FORMS[dialect][document === undefined ? 0 : 1];
    const lines = document === undefined ? columnLines(columns) : [document];
    const moment = now === undefined ? '' : momentOf(now);
    if (moment.includes('\n')) throw failed(STATUS.NOT_A_MOMENT, moment);
    const how = utf8([moment, ...lines].join('\n'), 'the name of a column');
    const made = native.newSql(this.handle, form, how);
    if (typeof made === 'number') throw failed(made, moment);
    try {
      const [outcome, keep, fault] = Object.values(STATEMENT).map((which) => statement(made, which));
      return fault === undefined ? { outcome, keep } : { outcome, keep, fault };
    } finally {
      native.free(made);
    }
  }
}

const momentOf = (now) => (now instanceof Date ? now.toISOString() : now);

function columnLines(columns) {
  return Object.entries(columns).map(([name, column]) => {
    if (/[=\n]/.test(name) || column.includes('\n')) throw failed(STATUS.UNKNOWN_COLUMN);
    return `${name}=${column}`;
  });
}

/** A statement of conditions; undefined where they have no such one. */
function statement(conditions, which) {
  const counted = newAnswer();
  if (native.sqlText(conditions, which, new Uint8Array(0), counted) === STATUS.UNKNOWN_NUMBER) return undefined;
  const text = written((buffer, answer) => {
    const status = native.sqlText(conditions, which, buffer, answer);
    counted.set(answer);
    return status;
  });
  const parameters = Array.from({ length: counted[FIELD.number] }, (_, index) => value(conditions, which, index));
  return { text, parameters };
}

/** The value of a parameter. An answer's number would round one of more digits than 2^53 has; its text does not. */
function value(conditions, which, index) {
  let kind;
  const text = written((buffer, answer) => {
    const status = native.sqlValue(conditions, which, index, buffer, answer);
    kind = answer[FIELD.verdict];
    return status;
  });
  return kind === VALUE.WHOLE ? whole(text) : text;
}

const whole = (digits) => (Number.isSafeInteger(Number(digits)) ? Number(digits) : BigInt(digits));

module.exports = { Filter };
