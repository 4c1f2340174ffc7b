'use strict';
const assert = require('node:assert/strict');
const { test } = require('node:test');
const { setImmediate } = require('node:timers/promises');
const { Worker, isMainThread, workerData } = require('node:worker_threads');
const { DOCUMENT, TYPES, row } = require('./items.js');
const odfilter = require('../index.js');

const item = () => odfilter.Schema.read(DOCUMENT).type('Mini.Item');

if (!isMainThread) {
  judgeAll(workerData);
} else {
  test('a filter', () => {
    const filter = item().check("((Active)) AND ID ge +01 and Tags/any(t:t eq 'b') and Changed lt now()");
    assert.equal(filter.canonical, "Active and ID ge 1 and Tags/any(t:t eq 'b') and Changed lt now()");
    assert.deepEqual(filter.propertyPaths, ['Active', 'ID', 'Tags', 'Changed']);
    assert.ok(filter.nodeCount > 10);
    assert.equal(filter.lambdaDepth, 1);
    assert.equal(filter.needsMoment, true);
    assert.match(filter.explanation, /Edm\.Boolean/);
    const long = `${'ID eq 1 or '.repeat(200)}Active`;
    assert.equal(item().check(long).canonical, long);
    assert.match(odfilter.version(), /^\d+\.\d+\.\d+$/);
  });

  test('verdicts', () => {
    const judge = item().check("Active and contains(Name,'a')").judge();
    assert.equal(judge.verdict(row(1, '"cab"', true)), true);
    assert.equal(judge.verdict(Buffer.from(row(1, '"xy"', true))), false);
    assert.equal(judge.verdict(row(1, 'null', true)), null);
    const now = item().check('Changed lt now()');
    for (const [moment, wanted] of [['2026-11-25T09:00:00Z', true], ['2025-11-25T09:00:00Z', false]]) {
      assert.equal(now.judge({ now: moment }).verdict(row(1, 'null', true)), wanted);
      assert.equal(now.judge({ now: new Date(moment) }).verdict(row(1, 'null', true)), wanted);
    }
    const costly = item().check("Tags/any(t:t eq 'b')");
    for (const bound of [2, 2n, 2n ** 70n]) assert.equal(costly.judge({ bound }).verdict(row(1, 'null', true)), true);
  });

  test('declared types', () => {
    const plain = { collection: false, nullable: false, navigation: false };
    const id = { name: 'ID', type: 'Edm.Int64', ...plain };
    const properties = [
      id, { ...plain, name: 'Parts', type: 'Mini.Base', collection: true, navigation: true },
      { ...plain, name: 'Tags', type: 'Edm.String', collection: true, nullable: true },
      { ...plain, name: 'Weight', type: undefined, nullable: true },
    ];
    const schema = odfilter.Schema.read(TYPES);
    assert.deepEqual(schema.types, [
      { name: 'Mini.Base', kind: 'entity', properties: [id] }, { name: 'Mini.Item', kind: 'entity', properties },
      { name: 'Mini.Part', kind: 'complex', properties: [] },
    ]);
    assert.deepEqual(schema.type('Mini.Item').properties, properties);
    assert.deepEqual(odfilter.Schema.read('{"$Version":"4.01"}').types, []);
  });

  test('SQL', () => {
    const filter = item().check("ID eq 9007199254740993 and Name eq 'a''b' and ID ne 1234567890123456");
    const { keep, fault } = filter.sql('postgresql', { columns: { ID: 'key' } });
    assert.deepEqual(keep.parameters, [9007199254740993n, "a'b", 1234567890123456]);
    assert.match(keep.text, /t\."key"/);
    assert.equal(fault, undefined);
    const divided = item().check('1 div ID eq 1').sql('sqlite', { document: 'doc' });
    assert.ok(divided.fault.text.length > 0 && divided.outcome.text.includes('t."doc"'));
    const digits = item().check("Name eq '\"12345678901234567890\\'").sql('sqlite').keep.parameters;
    assert.deepEqual(digits, ['"12345678901234567890\\']);
    const typed = item().check("Name eq '7' and ID gt -7 and Changed ge 1970-01-01T00:00:00Z");
    assert.deepEqual(typed.sql('sqlite').keep.parameters, ['7', -7, '062135769600000000000']);
    assert.deepEqual(typed.sql('postgresql').keep.parameters, ['7', -7, '0']);
    assert.throws(() => filter.sql('mysql'), RangeError);
  });

  test('threads: each worker has its own schema, and answers as all others', async () => {
    const workers = Array.from({ length: 8 }, (_, number) => new Worker(__filename, { workerData: number }));
    const ended = (it) => new Promise((done, fail) => it.on('exit', done).on('error', fail));
    const codes = await Promise.all(workers.map(ended));
    assert.deepEqual(codes, Array(8).fill(0));
  });

  test('a million calls keep no memory', async () => {
    const of = item();
    const text = Buffer.from(row(1, 'null', true));
    const calls = async (rounds) => {
      for (let round = 0; round < rounds; round++) {
        const filter = of.checkUrl('$top=5&$filter=Active%20and%20ID%20lt%20500');
        assert.equal(filter.canonical, 'Active and ID lt 500');
        const judge = filter.judge({ now: '2026-11-25T09:00:00Z', bound: 10 });
        assert.equal(judge.verdict(text), true);
        for (let again = 0; again < 14; again++) judge.verdict(text);
        if (round % 16 === 0) {
          assert.throws(() => of.check('Foo'), odfilter.FilterRefused);
          assert.throws(() => judge.verdict('{}'), odfilter.RowFault);
        }
        if (round % 4 !== 0) {
          judge.dispose();
          filter.dispose();
        }
        // what is collected is freed when the event loop turns
        if (round % 256 === 0) await setImmediate();
      }
    };
    await calls(10_000);
    const before = process.memoryUsage.rss();
    await calls(50_000);
    const grown = process.memoryUsage.rss() - before;
    assert.ok(grown < 24 << 20, `${grown} bytes more`);
    console.log(`figure: ${grown >> 10} KiB more after a million calls`);
  });
}

function judgeAll(number) {
  const filter = item().check(`ID lt ${number * 100}`);
  const judge = filter.judge();
  for (let id = 0; id < 1000; id++) assert.equal(judge.verdict(row(id, 'null', true)), id < number * 100);
}
