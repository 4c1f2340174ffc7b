'use strict';
/* What answers in a page without a server: a worker that is sent the bytes of odfilter.wasm, and then questions as
 * examples/try_page.html asks them, each answered as examples/try_page.py does. Stands after calls.js. */
const BOUND = 1000000; // what the filter may cost on a row, times its nodes, so that this bounds the time
const SECONDS = 5; // in which the rows of one question are judged; those that are left then have no verdict
const LINE_LIMIT = 1 << 20; // bytes of a row
const DECODER = new TextDecoder('utf-8', { ignoreBOM: true });
const VERDICTS = ['false', 'true', 'null'];

class Engine {
  constructor(instance) {
    this.calls = odfilterCalls(instance);
    this.STATUS = this.calls.STATUS;
    this.document = undefined;
  }

  /** The text that a call writes into a buffer, which grows to what it needs; undefined where it writes none. */
  written(call) {
    const answer = this.calls.newAnswer();
    for (let size = 1024; ; size = answer.length) {
      const buffer = new Uint8Array(size);
      const status = call(buffer, answer);
      if (status === this.STATUS.OK) return DECODER.decode(buffer.subarray(0, answer.length));
      if (status !== this.STATUS.TOO_SMALL) return undefined;
    }
  }

  nameOf(status, answer) {
    const name = this.written((text, said) => this.calls.faultName(status, answer.fault, text, said));
    return name ?? this.nameOfStatus(status);
  }

  /** The name of a status without numbered faults: Json of JSON_FAULT. */
  nameOfStatus(status) {
    const name = this.written((text, said) => this.calls.statusName(status, text, said)) ?? '';
    const words = name.replace(/_FAULT$/, '').split('_');
    return words.map((word) => word.slice(0, 1) + word.slice(1).toLowerCase()).join('');
  }

  sentenceOf(type, status, about, answer) {
    const sentence = (text, said) => this.calls.faultText(type, status, about, text, answer, said);
    return this.written(sentence) ?? this.nameOf(status, answer);
  }

  /** A fault as the page shows it: its sentence, and the program's line for it. */
  shown(type, status, about, answer, line) {
    return { sentence: this.sentenceOf(type, status, about, answer), line };
  }

  /** The schema of a document, kept for the next question, or its fault. */
  setSchema(text, document) {
    if (this.document === text) return undefined;
    for (let size = 1024; ; ) {
      const names = new Uint8Array(size), answer = this.calls.newAnswer();
      const made = this.calls.readSchema(document, names, answer);
      if (typeof made !== 'number') {
        if (this.document !== undefined) this.calls.free(this.schema);
        [this.schema, this.document] = [made, text];
        return undefined;
      }
      if (answer.length <= size) return this.schemaFault(made, names.subarray(0, answer.length), answer, text);
      size = answer.length;
    }
  }

  schemaFault(status, names, answer, text) {
    const both = [names.subarray(0, answer.first), names.subarray(answer.first)].map((it) => DECODER.decode(it));
    const words = ['schema', this.nameOf(status, answer), ...both.slice(0, this.calls.SCHEMA_NAMES[answer.fault] ?? 0)];
    const isXml = text.replace(/^[\ufeff \t\r\n]+/, '').startsWith('<');
    const hint = isXml ? 'This is XML: recipes/csdl_json.py makes a schema of it.' : '';
    return { ...this.shown(null, status, names, answer, words.join(' ')), hint };
  }

  /** What the page shows of a question. */
  answer(asked) {
    const bytes = Object.fromEntries(Object.entries(asked).map(([name, text]) => [name, utf8(text)]));
    if (!bytes.schema) return { schema: { ...noText(), hint: '' } };
    const fault = this.setSchema(asked.schema, bytes.schema);
    if (fault) return { schema: fault };
    const shown = { types: typesOf(asked.schema) };
    if (!bytes.type) return { ...shown, type: noText() };
    const name = asked.type || (shown.types[0] ?? '');
    const type = this.calls.findType(this.schema, utf8(name));
    if (typeof type === 'number') {
      const line = `schema UnknownType ${name}`;
      return { ...shown, type: this.shown(null, type, utf8(name), this.calls.newAnswer(), line) };
    }
    try {
      return { ...shown, ...this.ofType(type, asked, bytes) };
    } finally {
      this.calls.free(type);
    }
  }

  ofType(type, asked, bytes) {
    if (!bytes.filter) return { refused: { ...noText(), name: 'NotUtf8', start: 0, stop: 0 } };
    const answer = this.calls.newAnswer(), filter = this.calls.check(type, bytes.filter, answer);
    if (typeof filter === 'number') return { refused: this.refusal(type, filter, bytes.filter, answer) };
    try {
      const text = (name) => this.written((buffer, said) => this.calls[name](filter, buffer, said));
      const tree = treeOf(text('explain'), offsets(asked.filter));
      return { canonical: text('canonical'), tree, ...this.judged(type, filter, asked, bytes) };
    } finally {
      this.calls.free(filter);
    }
  }

  refusal(type, status, filter, answer) {
    const name = this.nameOf(status, answer), line = `refused ${name} ${answer.start}..${answer.stop}`;
    const [start, stop] = [answer.start, answer.stop].map((it) => unitsBefore(filter, it));
    return { ...this.shown(type, status, filter, answer, line), name, start, stop };
  }

  /** Of each line with a row its number, from 0, and its verdict; nothing where the moment is at fault. */
  judged(type, filter, asked, bytes) {
    if (!bytes.rows || !bytes.now) return { moment: noText() };
    const judge = this.calls.newJudgeOf(filter), answer = this.calls.newAnswer();
    if (typeof judge === 'number') throw new Error(this.nameOfStatus(judge));
    try {
      this.calls.nodeCount(filter, answer);
      this.calls.setBound(judge, Math.floor(BOUND / answer.number));
      this.calls.needsMoment(filter, answer);
      if (answer.number === 1) {
        const status = this.calls.setMoment(judge, bytes.now);
        if (status !== this.STATUS.OK) {
          const fault = this.shown(null, status, bytes.now, this.calls.newAnswer(), '');
          return { moment: fault };
        }
      }
      return { rows: this.verdicts(type, judge, asked.rows) };
    } finally {
      this.calls.free(judge);
    }
  }

  verdicts(type, judge, rows) {
    const found = [], ends = performance.now() + 1000 * SECONDS;
    rows.split('\n').forEach((line, number) => {
      if (/[^ \t\r]/.test(line)) found.push([number, this.verdict(type, judge, utf8(line), ends)]);
    });
    return found;
  }

  verdict(type, judge, row, ends) {
    if (row.length > LINE_LIMIT) return { fault: 'LineTooLong', path: '', sentence: 'LineTooLong' };
    if (performance.now() > ends) {
      return { fault: 'NotJudged', path: '', sentence: `The rows before this one took ${SECONDS} seconds.` };
    }
    const answer = this.calls.newAnswer(), status = this.calls.judgeNext(judge, row, answer);
    if (status === this.STATUS.OK) return VERDICTS[answer.verdict];
    if (status === this.STATUS.TOO_COSTLY) {
      return { fault: 'TooCostly', path: '', sentence: 'On this row the filter costs more than the page allows.' };
    }
    const path = status === this.STATUS.ROW_FAULT && this.written((text, said) => this.calls.path(judge, text, said));
    const sentence = this.sentenceOf(type, status, utf8(path || ''), answer);
    return { fault: this.nameOf(status, answer), path: path || '', sentence };
  }
}

/** The UTF-8 of a text; undefined where a lone surrogate has none. */
function utf8(text) {
  return /\p{Surrogate}/u.test(text) ? undefined : new TextEncoder().encode(text);
}

const noText = () => ({ sentence: 'The text is not UTF-8.', line: '' });

/** The names of a document's entity types, which is a schema. */
function typesOf(text) {
  const names = [];
  for (const [namespace, types] of Object.entries(JSON.parse(text))) {
    if (namespace.startsWith('$') || namespace.includes('@')) continue;
    for (const [name, it] of Object.entries(types)) {
      if (!name.startsWith('$') && it?.$Kind === 'EntityType') names.push(`${namespace}.${name}`);
    }
  }
  return names;
}

/** How many units of UTF-16 stand before a byte of a text. */
function unitsBefore(bytes, offset) {
  return DECODER.decode(bytes.subarray(0, offset)).length;
}

/** The offset in UTF-16 of each byte at which a character begins, and of the end. */
function offsets(text) {
  const found = new Map();
  let bytes = 0, units = 0;
  for (const character of text) {
    found.set(bytes, units);
    const code = character.codePointAt(0);
    bytes += code < 0x80 ? 1 : code < 0x800 ? 2 : code < 0x10000 ? 3 : 4;
    units += character.length;
  }
  return found.set(bytes, units);
}

/** The nodes of an explanation: of each its depth, start, stop, label, type, and its span in bytes. */
function treeOf(explanation, places) {
  return explanation.split('\n').slice(0, -1).map((line) => {
    const [, indent, span, label, kind] = /^( *)(\S+) (.*) (\S+)$/s.exec(line);
    const [start, stop] = span.split('..').map(Number);
    return [indent.length / 2, places.get(start), places.get(stop), label, kind, span];
  });
}

let engine;
if (typeof onmessage !== 'undefined') {
  onmessage = ({ data }) => {
    if (data instanceof Uint8Array) engine = new Engine(new WebAssembly.Instance(new WebAssembly.Module(data)));
    else postMessage(engine.answer(data));
  };
}
if (typeof module !== 'undefined') module.exports = { Engine };
