'use strict';
// Answers the questions of tests/library_cases.py by the package for Node: `suite.js PACKAGE FILE`.
const { readFileSync, writeSync } = require('node:fs');
const odfilter = require(process.argv[2]);

const wire = readFileSync(process.argv[3]);
let at = 0;

/** The next text of the questions. */
function next() {
  const colon = wire.indexOf(':', at);
  const stop = colon + 1 + Number(wire.subarray(at, colon));
  at = stop + 1;
  return wire.subarray(colon + 1, stop);
}

/** An error as the program spells it. */
function report(error) {
  if (error instanceof odfilter.FilterRefused) return `refused ${error.code} ${error.byteSpan.join('..')}`;
  if (error instanceof odfilter.QueryRefused) return `refused query ${error.code} ${error.number}`;
  if (error instanceof odfilter.RowFault) return `${error.code} ${error.path}`.trim();
  if (error instanceof odfilter.SchemaFault) return [error.code, ...error.names].join(' ');
  if (error instanceof odfilter.UnknownType) return 'unknown';
  throw error;
}

const where = ({ piece, value, text }) => `\n${[...piece, ...value].join(' ')}\n${text}`;
// what is held from question to question; undefined where nothing could be made
const held = { schema: undefined, type: undefined, filter: undefined };

/** Disposes of what is held by a name and of what was made of it, and makes another. */
function hold(name, make) {
  const names = Object.keys(held);
  for (const each of names.slice(names.indexOf(name))) {
    held[each]?.dispose();
    held[each] = undefined;
  }
  held[name] = make();
  return held[name];
}

function check(word, text) {
  if (held.type === undefined) return 'nothing';
  const calls = { filter: () => held.type.check(String(text)), query: () => held.type.checkQuery(text) };
  const call = calls[word] ?? (() => held.type.checkUrl(text));
  try {
    const found = hold('filter', call);
    if (found === undefined) return 'no filter';
    return word === 'url' ? `accepted${where(found)}` : 'accepted';
  } catch (error) {
    const isPlaced = word === 'url' && error instanceof odfilter.FilterRefused;
    return report(error) + (isPlaced ? where(error) : '');
  }
}

function judged(rows, now, answer) {
  if (held.filter === undefined) return 'nothing';
  const judge = held.filter.judge({ now: now.length > 0 ? String(now) : undefined });
  try {
    return answer(judge, rows);
  } finally {
    judge.dispose();
  }
}

function verdict(judge, row) {
  try {
    return String(judge.verdict(row));
  } catch (error) {
    return report(error);
  }
}

function keptLines(judge, rows) {
  try {
    return Buffer.concat([Buffer.from('\n'), judge.filterLines(rows).text]);
  } catch (error) {
    return Buffer.concat([Buffer.from(`row ${error.line} ${report(error)}\n`), error.kept]);
  }
}

/** The answer of a call, or why it has none. */
function orReport(call) {
  try {
    return call();
  } catch (error) {
    return report(error);
  }
}

const answers = {
  schema: () => orReport(() => (hold('schema', () => odfilter.Schema.read(next())), 'accepted')),
  type: () => {
    const name = String(next());
    if (held.schema === undefined) return 'nothing';
    return orReport(() => (hold('type', () => held.schema.type(name)), 'found'));
  },
  filter: () => check('filter', next()),
  query: () => check('query', next()),
  url: () => check('url', next()),
  canonical: () => held.filter?.canonical ?? 'nothing',
  explain: () => held.filter?.explanation ?? 'nothing',
  row: () => judged(next(), next(), verdict),
  lines: () => judged(next(), next(), keptLines),
};
const all = [];
while (at < wire.length) {
  const answer = Buffer.from(answers[String(next())]());
  all.push(Buffer.from(`${answer.length}:`), answer, Buffer.from(','));
}
const said = Buffer.concat(all);
for (let written = 0; written < said.length; ) written += writeSync(1, said, written);
