'use strict';
const { native, FIELD, newAnswer, utf8, bytes, failed, written, reported } = require('./calls.js');
const errors = require('./errors.js');
const { STATUS, SCHEMA_NAMES } = require('./numbers.js');
const { Held } = require('./held.js');
const { Filter } = require('./filter.js');
const { Judge } = require('./judge.js');
const { declaredBy } = require('./types.js');

const { FilterRefused, QueryRefused, SchemaFault, UnknownType } = errors;
const KINDS = { [STATUS.TEXT_FAULT]: 'text', [STATUS.SYNTAX_FAULT]: 'syntax', [STATUS.TYPE_FAULT]: 'type' };

/** A schema, read from a CSDL JSON document. */
class Schema extends Held {
  static read(document) {
    const given = bytes(document, 'a document');
    const answer = newAnswer();
    for (let size = 256; ; size = answer[FIELD.length]) {
      const names = Buffer.allocUnsafe(size);
      const made = native.readSchema(given, names, answer);
      if (typeof made !== 'number') return new Schema(made);
      if (made !== STATUS.SCHEMA_FAULT) throw failed(made);
      if (answer[FIELD.length] <= size) throw schemaFault(names.subarray(0, answer[FIELD.length]), answer);
    }
  }

  /** The entity type of that name, with its namespace or the alias of that. */
  type(name) {
    const given = utf8(name, 'the name of a type');
    const made = native.findType(this.handle, given);
    if (typeof made !== 'number') return new EntityType(made);
    if (made !== STATUS.UNKNOWN_TYPE) throw failed(made);
    const [message, more] = reported(null, made, given, newAnswer());
    throw new UnknownType(message, { ...more, typeName: name });
  }

  /** The entity and complex types that it declares. */
  get types() {
    return declaredBy(this.handle);
  }
}

function schemaFault(names, answer) {
  const first = answer[FIELD.first];
  const both = [names.toString('utf8', 0, first), names.toString('utf8', first)];
  const count = SCHEMA_NAMES[answer[FIELD.fault]] ?? (names.length === 0 ? 0 : 2);
  const [message, more] = reported(null, STATUS.SCHEMA_FAULT, names, answer);
  return new SchemaFault(message, { ...more, names: both.slice(0, count) });
}

/** An entity type of a schema, for whose entities filters are checked. */
class EntityType extends Held {
  check(text) {
    const given = utf8(text, 'a filter');
    const answer = newAnswer();
    return this.#made(native.check(this.handle, given, answer), answer, given, () => given);
  }

  /** The filter of a query with no other option of the standard's; undefined where there is none. */
  checkQuery(query) {
    const given = bytes(query, 'a query');
    const answer = newAnswer();
    return this.#made(native.checkQuery(this.handle, given, answer), answer, given, () => filterText(given));
  }

  /** The filter among any options of a query, as it stands in a URL after the `?`; undefined where there is none. */
  checkUrl(query) {
    const given = bytes(query, 'a query');
    const answer = newAnswer();
    const text = Buffer.allocUnsafe(given.length + 1);
    const made = native.checkUrl(this.handle, given, text, answer);
    return this.#made(made, answer, given, () => text.subarray(0, answer[FIELD.length]));
  }

  #made(made, answer, given, textOf) {
    const status = typeof made === 'number' ? made : STATUS.OK;
    if (status === STATUS.NO_FILTER) return undefined;
    const piece = [answer[FIELD.pieceStart], answer[FIELD.pieceStop]];
    const value = [answer[FIELD.valueStart], answer[FIELD.valueStop]];
    if (status === STATUS.OK) return new Filter(made, textOf().toString('utf8'), piece, value);
    if (status in KINDS) throw this.#refusal(status, answer, textOf(), { piece, value });
    if (status !== STATUS.QUERY_FAULT) throw failed(status);
    const [message, more] = reported(null, status, given, answer);
    throw new QueryRefused(message, { ...more, number: answer[FIELD.number] });
  }

  #refusal(status, answer, utf8Text, places) {
    const byteSpan = [answer[FIELD.start], answer[FIELD.stop]];
    const span = byteSpan.map((offset) => utf8Text.toString('utf8', 0, offset).length);
    const [message, more] = reported(this.handle, status, utf8Text, answer);
    const text = utf8Text.toString('utf8');
    return new FilterRefused(message, { kind: KINDS[status], ...more, text, span, byteSpan, ...places });
  }

  /** The properties of the type, those of its base first. */
  get properties() {
    return declaredBy(this.handle)[0].properties;
  }
}

/** The decoded text of the option filter or $filter of a query that has one. */
function filterText(query) {
  for (const option of Buffer.from(query).toString('latin1').split('&')) {
    const at = option.indexOf('=');
    const name = unescaped(at < 0 ? option : option.slice(0, at)).toString('latin1').toLowerCase();
    if (name === 'filter' || name === '$filter') return unescaped(at < 0 ? '' : option.slice(at + 1));
  }
  return Buffer.alloc(0);
}

/** What a text of bytes stands for, each `%` with two digits for the byte that these are. */
function unescaped(text) {
  const plain = text.replace(/%([0-9A-Fa-f]{2})/g, (_, digits) => String.fromCharCode(parseInt(digits, 16)));
  return Buffer.from(plain, 'latin1');
}

/** The version of the C library. */
const version = () => written(native.version);

module.exports = { Schema, EntityType, Filter, Judge, ...errors, version };
