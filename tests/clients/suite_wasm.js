'use strict';
/* Answers the questions of tests/library_cases.py by a module of WebAssembly:
 * `suite_wasm.js CALLS.js FILE.wasm QUESTIONS`. */
const fs = require('node:fs');
const [callsPath, modulePath, questions] = process.argv.slice(2);
const { odfilterCalls } = require(callsPath);

const module_ = new WebAssembly.Module(fs.readFileSync(modulePath));
if (WebAssembly.Module.imports(module_).length) throw new Error('the module imports something');
const odfilter = odfilterCalls(new WebAssembly.Instance(module_));
const { STATUS, SCHEMA_NAMES } = odfilter;
const VERDICTS = ['false', 'true', 'null'];
const GIVEN = { schema: 1, type: 1, filter: 1, query: 1, url: 1, canonical: 0, explain: 0, row: 2, lines: 2 };
const held = { schema: null, type: null, filter: null, judge: null };

function free(...names) {
  for (const name of names) {
    if (held[name] && odfilter.free(held[name]) !== STATUS.OK) throw new Error(`${name} is not freed`);
    held[name] = null;
  }
}

/** What a call writes: first its length is asked for. */
function written(call) {
  const answer = odfilter.newAnswer();
  let buffer = Buffer.alloc(0), status = call(buffer, answer);
  if (status === STATUS.TOO_SMALL) {
    buffer = Buffer.alloc(answer.length);
    status = call(buffer, answer);
  }
  if (status !== STATUS.OK) throw new Error(`a text that is not written: ${status}`);
  return buffer.subarray(0, answer.length);
}

function nameOf(status, answer) {
  return written((text, said) => odfilter.faultName(status, answer.fault, text, said)).toString();
}

function keep(name, made) {
  if (typeof made === 'number') return made;
  held[name] = made;
  return STATUS.OK;
}

function schema(document) {
  free('judge', 'filter', 'type', 'schema');
  const answer = odfilter.newAnswer();
  let names = Buffer.alloc(0), status = keep('schema', odfilter.readSchema(document, names, answer));
  if (status === STATUS.OK) return 'accepted';
  names = Buffer.alloc(answer.length);
  status = keep('schema', odfilter.readSchema(document, names, answer));
  const both = [names.subarray(0, answer.first), names.subarray(answer.first)].map(String);
  return [nameOf(status, answer), ...both.slice(0, SCHEMA_NAMES[answer.fault])].join(' ');
}

function type(name) {
  free('judge', 'filter', 'type');
  return keep('type', odfilter.findType(held.schema, name)) === STATUS.OK ? 'found' : 'unknown';
}

function checked(made, answer) {
  const status = keep('filter', made);
  if (status === STATUS.OK) return 'accepted';
  if (status === STATUS.NO_FILTER) return 'no filter';
  if (status === STATUS.QUERY_FAULT) return `refused query ${nameOf(status, answer)} ${answer.number}`;
  return `refused ${nameOf(status, answer)} ${answer.start}..${answer.stop}`;
}

function asked(call, given) {
  free('judge', 'filter');
  const answer = odfilter.newAnswer();
  return checked(call(held.type, given, answer), answer);
}

function url(query) {
  free('judge', 'filter');
  const answer = odfilter.newAnswer(), text = Buffer.alloc(query.length);
  const said = checked(odfilter.checkUrl(held.type, query, text, answer), answer);
  if (!answer.pieceStop) return said;
  const places = [answer.pieceStart, answer.pieceStop, answer.valueStart, answer.valueStop].join(' ');
  return `${said}\n${places}\n${text.subarray(0, answer.length)}`;
}

function judgeAt(moment) {
  free('judge');
  if (keep('judge', odfilter.newJudgeOf(held.filter)) !== STATUS.OK) throw new Error('no judge');
  if (moment.length && odfilter.setMoment(held.judge, moment) !== STATUS.OK) throw new Error('no moment');
  return held.judge;
}

function rowFault(status, answer) {
  if (status === STATUS.JSON_FAULT) return 'Json';
  if (status === STATUS.LINE_TOO_LONG) return 'LineTooLong';
  if (status !== STATUS.ROW_FAULT) return nameOf(status, answer);
  const path = String(written((text, said) => odfilter.path(held.judge, text, said)));
  return path ? `${nameOf(status, answer)} ${path}` : nameOf(status, answer);
}

function row(bytes, moment) {
  const answer = odfilter.newAnswer(), status = odfilter.judgeNext(judgeAt(moment), bytes, answer);
  return status === STATUS.OK ? VERDICTS[answer.verdict] : rowFault(status, answer);
}

function lines(rows, moment) {
  const answer = odfilter.newAnswer(), kept = Buffer.alloc(rows.length + 1);
  const status = odfilter.filterLines(held.filter, judgeAt(moment), rows, kept, answer);
  const fault = status === STATUS.OK ? '' : `row ${answer.number} ${rowFault(status, answer)}`;
  return Buffer.concat([Buffer.from(`${fault}\n`), kept.subarray(0, answer.length)]);
}

const ANSWERS = {
  schema, type, url, row, lines,
  filter: (text) => asked(odfilter.check, text),
  query: (text) => asked(odfilter.checkQuery, text),
  canonical: () => written((text, answer) => odfilter.canonical(held.filter, text, answer)),
  explain: () => written((text, answer) => odfilter.explain(held.filter, text, answer)),
};
const NEEDS = { schema: null, type: 'schema', filter: 'type', query: 'type', url: 'type' };

function netstrings(wire) {
  const texts = [];
  for (let at = 0; at < wire.length; ) {
    const colon = wire.indexOf(0x3a, at), start = colon + 1, stop = start + Number(wire.toString('ascii', at, colon));
    texts.push(wire.subarray(start, stop));
    at = stop + 1;
  }
  return texts;
}

const texts = netstrings(fs.readFileSync(questions)), said = [];
for (let at = 0; at < texts.length; ) {
  const word = String(texts[at]), given = texts.slice(at + 1, (at += 1 + GIVEN[word]));
  const need = word in NEEDS ? NEEDS[word] : 'filter';
  const answer = need && !held[need] ? 'nothing' : ANSWERS[word](...given);
  const bytes = Buffer.from(answer);
  said.push(Buffer.from(`${bytes.length}:`), bytes, Buffer.from(','));
}
free('judge', 'filter', 'type', 'schema');
fs.writeSync(1, Buffer.concat(said));
