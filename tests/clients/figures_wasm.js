'use strict';
/* What calls of a module of WebAssembly take: `figures_wasm.js CALLS.js FILE.wasm`. A million calls must not make its
 * memory grow, and the deepest filters must fit on its stack. */
const assert = require('node:assert/strict');
const fs = require('node:fs');
const [callsPath, modulePath] = process.argv.slice(2);
const { odfilterCalls } = require(callsPath);

const instance = new WebAssembly.Instance(new WebAssembly.Module(fs.readFileSync(modulePath)));
const odfilter = odfilterCalls(instance);
const DOCUMENT = JSON.stringify({
  $Version: '4.01',
  Mini: {
    Item: {
      $Kind: 'EntityType', ID: { $Type: 'Edm.Int64' }, Name: { $Nullable: true }, Active: { $Type: 'Edm.Boolean' },
      Changed: { $Type: 'Edm.DateTimeOffset' }, Tags: { $Collection: true },
    },
  },
});
const ROW = '{"ID":1,"Name":"abc","Active":true,"Changed":"2026-01-01T00:00:00Z","Tags":["a","b","c"]}';
const { STATUS, VERDICT } = odfilter;
const utf8 = (text) => new TextEncoder().encode(text);
const answer = odfilter.newAnswer(), buffer = new Uint8Array(1 << 20), row = utf8(ROW);
const type = odfilter.findType(odfilter.readSchema(utf8(DOCUMENT), buffer, answer), utf8('Mini.Item'));
const checked = (text) => {
  const filter = odfilter.check(type, utf8(text), answer);
  assert.notEqual(typeof filter, 'number');
  return filter;
};
// how long this thread has had a processor
const nanoseconds = () => Number(fs.readFileSync('/proc/thread-self/schedstat', 'utf8').split(' ')[0]);

function figure(name, times, call) {
  for (let warm = 0; warm < times / 10; warm++) call();
  const begun = nanoseconds();
  for (let time = 0; time < times; time++) call();
  const took = (nanoseconds() - begun) / 1000 / times;
  assert.ok(took < 100, `${name}: ${took}`);
  console.log(`figure: ${name} takes ${took.toFixed(2)} us of the processor`);
}

function judged(text) {
  const filter = checked(text), judge = odfilter.newJudgeOf(filter);
  odfilter.setBound(judge, 1000);
  for (const write of [odfilter.canonical, odfilter.explain]) {
    const status = write(filter, buffer, answer);
    assert.ok(answer.length > 500 && (status === 0 || (status === STATUS.TOO_SMALL && answer.length > buffer.length)));
  }
  const status = odfilter.judgeNext(judge, row, answer), verdict = answer.verdict;
  for (const handle of [judge, filter]) odfilter.free(handle);
  return status || verdict === VERDICT.TRUE;
}

const open = Array.from({ length: 64 }, (_, number) => `Tags/any(x${number}:`).join('');
const deepest = [
  `${'- '.repeat(4090)}ID eq 1`, `${'not '.repeat(4090)}Active`,
  `${'Active in (true,false or true and true eq '.repeat(64)}Active${')'.repeat(64)}`,
  `${open}x0 eq Name${')'.repeat(64)}`,
];
assert.deepEqual(deepest.map(judged), [true, true, true, STATUS.TOO_COSTLY]);
const filter = checked("Active and contains(Name,'a')"), judge = odfilter.newJudgeOf(filter);
const size = instance.exports.memory.buffer.byteLength;
figure(`a row of ${row.length} bytes`, 1_000_000, () => odfilter.judgeNext(judge, row, answer));
assert.equal(answer.verdict, VERDICT.TRUE);
const text = "Active and ID gt 1 and contains(Name,'abc') or ID in (1,2,3)";
figure(`a check of ${text.length} bytes`, 20_000, () => odfilter.free(checked(text)));
const grown = instance.exports.memory.buffer.byteLength - size;
assert.equal(grown, 0);
console.log(`figure: ${grown >> 10} KiB more after a million calls`);
