'use strict';
// The addon's calls over texts: what they borrow, what they write, and the numbers that they report.
const native = require('./odfilter.node');
const { STATUS, FAULTS } = require('./numbers.js');
const { ODataError } = require('./errors.js');

// the fields of an answer, in the order of odfilter.h
const FIELD = {
  fault: 0, verdict: 1, start: 2, stop: 3, number: 4, length: 5, first: 6, rows: 7, kept: 8, pieceStart: 9,
  pieceStop: 10, valueStart: 11, valueStop: 12,
};
const FIELDS = Object.keys(FIELD).length;

const newAnswer = () => new Float64Array(FIELDS);

/** The UTF-8 of a text. A lone surrogate has none; Node would replace it, and so check another text. */
function utf8(text, what) {
  if (typeof text !== 'string') throw new TypeError(`${what} is a string, not ${typeof text}`);
  if (/\p{Surrogate}/u.test(text)) throw new ODataError(`${what} has a lone surrogate`, { code: 'NotUtf8' });
  return Buffer.from(text, 'utf8');
}

/** The bytes of a string or a Uint8Array. */
function bytes(given, what) {
  if (given instanceof Uint8Array) return given;
  if (typeof given === 'string') return utf8(given, what);
  throw new TypeError(`${what} is a string or a Uint8Array, not ${typeof given}`);
}

/** The error of a status that says everything but what it is about. */
function failed(status, about = '') {
  if (status === STATUS.NOT_UTF8) return new ODataError('the text is not UTF-8', { code: 'NotUtf8' });
  if (status === STATUS.MEMORY) return new ODataError('out of memory', { code: 'OutOfMemory' });
  const isPlain = FAULTS[status]?.[0] !== undefined;
  if (!isPlain) return new ODataError(`odfilter: status ${status}`, { code: `Status${status}` });
  const [message, more] = reported(null, status, utf8(about, 'a text'), newAnswer());
  return new ODataError(message, more);
}

/** The bytes that a call writes into a buffer, which grows to the length that the call asks for. */
function writtenBytes(call) {
  const answer = newAnswer();
  for (let size = 256; ; size = answer[FIELD.length]) {
    const buffer = Buffer.allocUnsafe(size);
    const status = call(buffer, answer);
    if (status === STATUS.OK) return buffer.subarray(0, answer[FIELD.length]);
    if (status !== STATUS.TOO_SMALL) throw failed(status);
  }
}

const written = (call) => writtenBytes(call).toString('utf8');

/** The name of a fault. A library that is newer than this package may know more of them. */
function codeOf(status, fault) {
  const number = fault[FIELD.fault];
  return FAULTS[status]?.[number] ?? written((text, answer) => native.faultName(status, number, text, answer));
}

/** The library's sentence about a fault of a text; `type` is the handle of the type, or null. */
function messageOf(type, status, about, fault) {
  return written((text, answer) => native.faultText(type, status, about, text, fault, answer));
}

/** The object of a fault of a text, as the program prints it by `--format json`. */
function objectOf(type, status, about, fault) {
  return JSON.parse(written((text, answer) => native.faultJson(type, status, about, text, fault, answer)));
}

/** What the library reports of a fault: the sentence, and the code and the object for programs. */
function reported(type, status, about, fault) {
  const more = { code: codeOf(status, fault), object: objectOf(type, status, about, fault) };
  return [messageOf(type, status, about, fault), more];
}

module.exports = { native, FIELD, newAnswer, utf8, bytes, failed, written, writtenBytes, reported };
