'use strict';
// What calls take of the processor, and of the stack that the process is given.
const assert = require('node:assert/strict');
const { readFileSync } = require('node:fs');
const { test } = require('node:test');
const { DOCUMENT, row } = require('./items.js');
const odfilter = require('../index.js');

const item = odfilter.Schema.read(DOCUMENT).type('Mini.Item');
// how long this thread has had a processor
const nanoseconds = () => Number(readFileSync('/proc/thread-self/schedstat', 'utf8').split(' ')[0]);

function judged(text) {
  const filter = item.check(text);
  assert.ok(filter.canonical.length > 500 && filter.explanation.length > 500);
  try {
    return filter.judge({ bound: 1000 }).verdict(row(1, 'null', true));
  } catch (error) {
    return error.code;
  }
}

test('the deepest filters', () => {
  const open = Array.from({ length: 64 }, (_, number) => `Tags/any(x${number}:`).join('');
  const deepest = [
    `${'- '.repeat(4090)}ID eq 1`, `${'not '.repeat(4090)}Active`,
    `${'Active in (true,false or true and true eq '.repeat(64)}Active${')'.repeat(64)}`,
    `${open}x0 eq Name${')'.repeat(64)}`,
  ];
  assert.deepEqual(deepest.map(judged), [true, true, true, 'TooCostly']);
});

test('figures', () => {
  const figure = (name, times, call) => {
    for (let warm = 0; warm < times; warm++) call();
    const begun = nanoseconds();
    for (let time = 0; time < times; time++) call();
    const took = (nanoseconds() - begun) / 1000 / times;
    assert.ok(took < 100, `${name}: ${took}`);
    console.log(`figure: ${name} takes ${took.toFixed(2)} us of the processor`);
  };
  const judge = item.check("Active and contains(Name,'a')").judge();
  const text = Buffer.from(row(1, '"abc"', true));
  figure(`a row of ${text.length} bytes`, 200_000, () => judge.verdict(text));
  const filter = "Active and ID gt 1 and contains(Name,'abc') or ID in (1,2,3)";
  figure(`a check of ${filter.length} bytes`, 20_000, () => item.check(filter).dispose());
});
