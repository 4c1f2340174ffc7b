'use strict';
const assert = require('node:assert/strict');
const { Readable } = require('node:stream');
const { pipeline } = require('node:stream/promises');
const { test } = require('node:test');
const { DOCUMENT, row } = require('./items.js');
const odfilter = require('../index.js');

const item = () => odfilter.Schema.read(DOCUMENT).type('Mini.Item');
const judge = () => item().check('Active').judge();
const LINE_LIMIT = 1 << 20;

/** Lines of which one may be at fault, and those that are kept before it. */
function lines(count, faulty) {
  const line = (n) => (n % 7 === 0 ? ' \t' : row(n, 'null', n % 3 === 0));
  const all = Array.from({ length: count }, (_, n) => (n === faulty ? '{}' : line(n)));
  const kept = all.slice(0, faulty < 0 ? count : faulty).filter((_, n) => n % 7 !== 0 && n % 3 === 0);
  return [all.map((it) => `${it}\n`).join(''), kept.map((it) => `${it}\n`).join('')];
}

/** What a stream gives for chunks of so many bytes, and its error. */
async function streamed(text, size, by = judge()) {
  const bytes = Buffer.from(text);
  const count = Math.ceil(bytes.length / size);
  const chunks = Array.from({ length: count }, (_, n) => bytes.subarray(n * size, (n + 1) * size));
  const got = [];
  try {
    for await (const chunk of Readable.from(chunks, { objectMode: false }).pipe(by.stream())) got.push(chunk);
  } catch (error) {
    return [Buffer.concat(got).toString(), error];
  }
  return [Buffer.concat(got).toString(), undefined];
}

test('lines of a block', () => {
  const [all, kept] = lines(100, -1);
  const found = judge().filterLines(all);
  assert.equal(found.text.toString(), kept);
  assert.deepEqual([found.rows, found.kept], [85, kept.split('\n').length - 1]);
  const [faulty, before] = lines(100, 50);
  const isWell = (it) => it.line === 51 && it.code === 'Missing' && it.kept.toString() === before;
  assert.throws(() => judge().filterLines(faulty), isWell);
});

test('a stream of lines, in chunks of any size', async () => {
  for (const size of [1, 7, 1000, 1 << 16, 1 << 24]) {
    for (const faulty of [-1, 0, 1, 1999]) {
      const [all, kept] = lines(2000, faulty);
      const [got, error] = await streamed(all, size);
      assert.equal(got, kept, `${size} ${faulty}`);
      const wanted = faulty < 0 ? undefined : ['Missing', faulty + 1, 0];
      assert.deepEqual(error && [error.code, error.line, error.kept.length], wanted);
    }
    const last = row(3, 'null', true);
    assert.deepEqual(await streamed(last, size), [`${last}\n`, undefined]);
  }
});

test('a line that costs more than the bound', async () => {
  const costly = () => item().check("Tags/any(t:t eq 'b')").judge({ bound: 2 });
  const first = `${row(3, 'null', true)}\n`;
  const all = `${first} \n${first}${first.replace('"a","b"', '"y","z"')}${first}`;
  const isWell = (it) => it instanceof odfilter.RowFault && it.code === 'TooCostly' && it.line === 4 && it.path === '';
  assert.throws(() => costly().filterLines(all), (it) => isWell(it) && it.kept.toString() === first + first);
  for (const size of [1, 200, 1 << 16]) {
    const [got, error] = await streamed(all, size, costly());
    assert.ok(isWell(error) && error.kept.length === 0, error);
    assert.equal(got, first + first);
  }
});

test('a line that is too long, and no lines', async () => {
  const first = `${row(3, 'null', true)}\n`;
  const [got, error] = await streamed(first + ' '.repeat(LINE_LIMIT + 70_000), 1 << 16);
  assert.deepEqual([got, error.code, error.line], [first, 'LineTooLong', 2]);
  assert.deepEqual(await streamed('', 10), ['', undefined]);
});

test('pipeline', async () => {
  const [all, kept] = lines(5000, -1);
  let got = '';
  await pipeline(Readable.from([Buffer.from(all)]), judge().stream(), async (source) => {
    for await (const chunk of source) got += chunk;
  });
  assert.equal(got, kept);
  const [faulty] = lines(5000, 4000);
  await assert.rejects(pipeline(Readable.from([Buffer.from(faulty)]), judge().stream(), async (source) => {
    for await (const _ of source);
  }), odfilter.RowFault);
});
