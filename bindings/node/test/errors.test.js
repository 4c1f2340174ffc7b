'use strict';
const assert = require('node:assert/strict');
const { test } = require('node:test');
const { DOCUMENT, row } = require('./items.js');
const odfilter = require('../index.js');

const { ODataError, FilterRefused, QueryRefused, SchemaFault, UnknownType, RowFault } = odfilter;
const item = () => odfilter.Schema.read(DOCUMENT).type('Mini.Item');

function thrown(call) {
  try {
    call();
  } catch (error) {
    return error;
  }
  return assert.fail('nothing was thrown');
}

test('a refused filter has its span in characters and in bytes', () => {
  const text = "Name eq '\u{1F98A}é' and Foo eq 1";
  const refused = thrown(() => item().check(text));
  assert.ok(refused instanceof FilterRefused && refused instanceof ODataError && refused.message.endsWith('.'));
  assert.deepEqual([refused.kind, refused.code, refused.text], ['type', 'UnknownProperty', text]);
  assert.equal(text.slice(...refused.span), 'Foo');
  assert.equal(Buffer.from(text).subarray(...refused.byteSpan).toString(), 'Foo');
  assert.equal(refused.pointed, `${text}\n                 ^^^`);
  assert.equal(thrown(() => item().check('')).pointed, '\n^');
  const found = thrown(() => item().checkUrl('$top=5&$filter=Foo%20eq%201'));
  assert.deepEqual([found.piece, found.value, found.text], [[7, 27], [15, 27], 'Foo eq 1']);
  const asked = thrown(() => item().checkQuery("x=1&%24Filter=Name%20eq%0A'\u00e9'&y=2"));
  assert.deepEqual([asked.code, asked.text, asked.byteSpan], ['BadCharacter', "Name eq\n'\u00e9'", [7, 8]]);
});

test('the object of each kind of mistake', () => {
  const calls = {
    typing: () => item().check('name eq 1'), query: () => item().checkUrl('x=1;$filter=Foo'),
    schema: () => odfilter.Schema.read('{}'), unknown_type: () => odfilter.Schema.read(DOCUMENT).type('Mini.No'),
    row: () => item().check('Active').judge().verdict('{}'), json: () => item().check('Active').judge().verdict('{'),
  };
  for (const [wanted, call] of Object.entries(calls)) {
    const { code, message, object } = thrown(call);
    assert.deepEqual([object.class, object.name, object.sentence, object.line], [wanted, code, message, null]);
  }
  const refused = thrown(() => item().check("name eq 'a'")).object;
  assert.deepEqual(refused.suggestions, [{ start: 0, end: 4, text: 'Name' }]);
  const costly = thrown(() => item().check("Tags/any(t:t eq 'z')").judge({ bound: 2 }).verdict(row(1, 'null', true)));
  const { object, message } = costly;
  assert.deepEqual([object.class, object.sentence, object.line], ['too_costly', message, null]);
});

test('the error of each kind of mistake', () => {
  const long = 'A'.repeat(999);
  const query = thrown(() => item().checkUrl('x=1;$filter=Foo'));
  assert.ok(query instanceof QueryRefused && query.code === 'Disguised' && query.number === 0);
  const document = `{"$Version":"4.01","N":{"${long}":{"$Kind":"EntityType","P":5}}}`;
  const schema = thrown(() => odfilter.Schema.read(document));
  assert.ok(schema instanceof SchemaFault && schema.code === 'BadProperty');
  assert.deepEqual(schema.names, [`N.${long}`, 'P']);
  const unknown = thrown(() => odfilter.Schema.read(DOCUMENT).type('Mini.No'));
  assert.ok(unknown instanceof UnknownType && unknown.typeName === 'Mini.No');
  const fault = thrown(() => item().check('Active').judge().verdict(row(7, 'null', true).replace('7', '"7"')));
  assert.ok(fault instanceof RowFault);
  assert.deepEqual([fault.code, fault.path, fault.line], ['WrongKind', 'ID', 1]);
  assert.equal(item().checkUrl('$top=5'), undefined);
  assert.equal(item().checkQuery(''), undefined);
});

test('codes of errors that say everything', () => {
  const active = item().check('Active');
  const needs = item().check('Changed lt now()');
  const text = row(1, 'null', true);
  const calls = {
    MomentNeeded: [() => needs.judge().verdict(text), () => needs.sql('sqlite')],
    NotAMoment: [() => needs.judge({ now: 'soon' }), () => needs.sql('sqlite', { now: '2026-01-01T00:00:00Z\nID=x' })],
    TooCostly: [() => item().check("Tags/any(t:t eq 'z')").judge({ bound: 2 }).verdict(text)],
    UnknownColumn: ['No', 'ID='].map((name) => () => active.sql('sqlite', { columns: { [name]: 'x' } })),
    Nul: [() => item().check("Name eq 'a\0'").sql('sqlite')],
    TooDeep: [() => item().check(`${'(ID add '.repeat(60)}ID${')'.repeat(60)} eq 1`).sql('sqlite')],
  };
  for (const [code, all] of Object.entries(calls)) {
    for (const error of all.map(thrown)) {
      assert.deepEqual([error.code, error.object.name, error.object.sentence], [code, code, error.message]);
    }
  }
});

test('a lone surrogate is refused, wherever a text is given', () => {
  const calls = [
    () => item().check("Name eq '\ud800'"), () => item().checkUrl("$filter=Name eq '\udfff'"),
    () => item().checkQuery('filter=\udc80'), () => odfilter.Schema.read('{"\ud800":1}'),
    () => odfilter.Schema.read(DOCUMENT).type('Mini.\udfff'), () => item().check('Active').judge({ now: '\udc80' }),
    () => item().check('Active').judge().verdict('{"ID":"\ud83e"}'),
    () => item().check('Active').sql('sqlite', { columns: { ID: '\ud800' } }),
  ];
  for (const call of calls) assert.equal(thrown(call).code, 'NotUtf8');
  assert.equal(item().check("Name eq '\ud83e\udd8a'").canonical, "Name eq '\u{1F98A}'");
  assert.equal(thrown(() => item().check(Buffer.from('Active'))).constructor, TypeError);
});

test('what is closed says so, in each order of closing', () => {
  for (const order of permutations([0, 1, 2, 3])) {
    const schema = odfilter.Schema.read(DOCUMENT);
    const of = schema.type('Mini.Item');
    const filter = of.check('Active');
    const judge = filter.judge();
    const calls = [
      () => schema.type('Mini.Item'), () => of.check('Active'), () => filter.canonical,
      () => judge.filterLines(row(1, 'null', true)),
    ];
    order.forEach((closed, step) => {
      for (const left of order.slice(step)) calls[left]();
      const held = [schema, of, filter, judge][closed];
      held.dispose();
      held.dispose();
      assert.equal(thrown(calls[closed]).code, 'Closed');
    });
  }
});

function permutations(all) {
  if (all.length === 0) return [[]];
  return all.flatMap((first) => permutations(all.filter((it) => it !== first)).map((rest) => [first, ...rest]));
}

test('an object of another kind is a TypeError or an error, and no crash', () => {
  const native = require('../odfilter.node');
  const answer = new Float64Array(13);
  const text = Buffer.alloc(16);
  const schema = odfilter.Schema.read(DOCUMENT);
  for (const wrong of [undefined, null, {}, 5, 'x', text, [], Symbol('x')]) {
    assert.throws(() => native.check(wrong, text, answer), TypeError);
    if (wrong !== text) assert.throws(() => native.readSchema(wrong, text, answer), TypeError);
    assert.throws(() => native.canonical(schema.handle, text, wrong), TypeError);
  }
  assert.throws(() => native.canonical(schema.handle, text, new Float64Array(12)), TypeError);
  assert.throws(() => native.check(schema.handle), TypeError);
  assert.equal(native.canonical(schema.handle, text, answer), 2);
  assert.equal(thrown(() => odfilter.Filter.prototype.judge.call({ handle: 5 })).constructor, TypeError);
});
