'use strict';
// The types of a schema, from the lines that odfilter_types writes.
const { native, written } = require('./calls.js');

/** The types of a schema, or one type. */
function declaredBy(handle) {
  const lines = written((text, answer) => native.types(handle, text, answer));
  return lines.replaceAll('\n  ', '\0').split('\n').slice(0, -1).map((block) => {
    const [head, ...properties] = block.split('\0');
    const [kind, name] = head.split(' ');
    return { name, kind, properties: properties.map(propertyIn) };
  });
}

function propertyIn(line) {
  const [name, whole, ...words] = line.split(' ');
  const item = /^Collection\((.*)\)$/.exec(whole)?.[1] ?? whole;
  const type = item === '?' ? undefined : item;
  const [nullable, navigation] = ['nullable', 'navigation'].map((word) => words.includes(word));
  return { name, type, collection: item !== whole, nullable, navigation };
}

module.exports = { declaredBy };
