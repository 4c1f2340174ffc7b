'use strict';

/** Why a call gave nothing. `code` stays from version to version; `message` is a sentence for people. */
class ODataError extends Error {
  constructor(message, more) {
    super(message);
    this.name = new.target.name;
    Object.assign(this, more);
  }
}

/** A filter is refused: `span` counts characters of `text` (UTF-16 units), `byteSpan` bytes of its UTF-8. */
class FilterRefused extends ODataError {
  /** The text, and below it a caret under each character of the span, one at least. */
  get pointed() {
    const [start, stop] = this.span;
    const shown = this.text.replace(/[\p{C}\p{Zl}\p{Zp}]/gu, '\uFFFD');
    const count = (text) => [...text].length;
    const carets = '^'.repeat(Math.max(count(this.text.slice(start, stop)), 1));
    return `${shown}\n${' '.repeat(count(this.text.slice(0, start)))}${carets}`;
  }
}

class QueryRefused extends ODataError {}
class SchemaFault extends ODataError {}
class UnknownType extends ODataError {}
class RowFault extends ODataError {}

module.exports = { ODataError, FilterRefused, QueryRefused, SchemaFault, UnknownType, RowFault };
