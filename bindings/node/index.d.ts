import type { Transform } from 'node:stream';

/** A string stands for its UTF-8; a string with a lone surrogate is refused with the code NotUtf8. */
export type BytesOrText = string | Uint8Array;
/** The first offset and the one after the last. */
export type Span = readonly [start: number, stop: number];

/**
 * Why a call gave nothing. `code` stays from version to version; `message` is a sentence for people. `object` is what the
 * program prints of it by `--format json`, with the edits that the type suggests; it is undefined where there is none.
 */
export class ODataError extends Error {
  readonly code: string;
  readonly object?: Readonly<Record<string, unknown>>;
}
/** A filter is refused: `span` counts characters of `text` (UTF-16 units), `byteSpan` bytes of its UTF-8. */
export class FilterRefused extends ODataError {
  readonly kind: 'text' | 'syntax' | 'type';
  readonly text: string;
  readonly span: Span;
  readonly byteSpan: Span;
  /** Of `checkUrl`: the bytes of the query that the filter's option takes, and those of its value. */
  readonly piece: Span;
  readonly value: Span;
  /** The text, and below it a caret under each character of the span, one at least. */
  readonly pointed: string;
}
/** A query is refused: `number` is the byte of the `%` for the code BadEscape, and else the index of the option. */
export class QueryRefused extends ODataError {
  readonly number: number;
}
/** A document is no schema: `names` are those that the fault carries, none to two. */
export class SchemaFault extends ODataError {
  readonly names: readonly string[];
}
/** A schema has no entity type of that name. */
export class UnknownType extends ODataError {
  readonly typeName: string;
}
/**
 * A row has no verdict; one that costs more than the bound has the code TooCostly. Lines are counted from 1; `kept` has
 * the lines that are kept before it. The line of `object` is null.
 */
export class RowFault extends ODataError {
  readonly path: string;
  readonly line: number;
  readonly kept: Uint8Array;
}

declare abstract class Held {
  /** Frees what is held. A second time does nothing; what is not disposed of is freed when it is collected. */
  dispose(): void;
}
/** A schema, read from a CSDL JSON document. */
export class Schema extends Held {
  private constructor();
  /** Throws SchemaFault. */
  static read(document: BytesOrText): Schema;
  /** The entity type of that name, with its namespace or the alias of that. Throws UnknownType. */
  type(name: string): EntityType;
  /** The entity and complex types that it declares, in the byte order of their names. */
  readonly types: readonly DeclaredType[];
}
/** An entity or complex type as a schema declares it. */
export interface DeclaredType {
  readonly name: string;
  readonly kind: 'entity' | 'complex';
  readonly properties: readonly DeclaredProperty[];
}
/**
 * A property as a schema declares it; of a collection, `type` and `nullable` are those of an item. `type` is undefined
 * where it is not read: neither filters nor rows can have the property.
 */
export interface DeclaredProperty {
  readonly name: string;
  readonly type?: string;
  readonly collection: boolean;
  readonly nullable: boolean;
  readonly navigation: boolean;
}
/** An entity type of a schema, for whose entities filters are checked. */
export class EntityType extends Held {
  private constructor();
  /** Throws FilterRefused. */
  check(text: string): Filter;
  /** The filter among any options of a query, as it stands in a URL after `?`. Throws FilterRefused, QueryRefused. */
  checkUrl(query: BytesOrText): Filter | undefined;
  /** The filter of a query with no other option of the standard's. Throws FilterRefused, QueryRefused. */
  checkQuery(query: BytesOrText): Filter | undefined;
  /** The properties of the type, those of its base first. */
  readonly properties: readonly DeclaredProperty[];
}
/** An expression of SQL over a table `t`, whose parameters are numbered from 1. */
export interface Statement {
  readonly text: string;
  readonly parameters: readonly (number | bigint | string)[];
}
/** What a filter says of the rows of a table; `fault` is absent where no row can have one. */
export interface Conditions {
  readonly outcome: Statement;
  readonly keep: Statement;
  readonly fault?: Statement;
}
export interface SqlOptions {
  /** The columns of those properties whose column has another name. */
  columns?: Readonly<Record<string, string>>;
  /** The column that has each row as JSON; without it each property has a column. */
  document?: string;
  /** The moment that now() stands for. */
  now?: string | Date;
}
export interface JudgeOptions {
  /** The moment that now() stands for. */
  now?: string | Date;
  /** What the filter may cost on each row. */
  bound?: number | bigint;
}
/** A checked filter. */
export class Filter extends Held {
  private constructor();
  readonly text: string;
  readonly piece: Span;
  readonly value: Span;
  /** One text for all filters that differ in spaces, parentheses and spelling alone. */
  readonly canonical: string;
  /** A line for each node: its span, what it is, and its type. */
  readonly explanation: string;
  /** The paths of the properties that the filter reads, each once and in order. */
  readonly propertyPaths: readonly string[];
  /** Whether the filter calls now(), so that a judge needs a moment. */
  readonly needsMoment: boolean;
  readonly nodeCount: number;
  readonly lambdaDepth: number;
  judge(options?: JudgeOptions): Judge;
  sql(dialect: 'postgresql' | 'sqlite', options?: SqlOptions): Conditions;
}
/** What judges rows by a filter. Reuse it: it caches how rows of that shape are read. */
export class Judge extends Held {
  private constructor();
  /** true, false, or null where the filter is null on the row, which is one JSON object. Throws RowFault. */
  verdict(row: BytesOrText): boolean | null;
  /** Of rows, one JSON object a line, those on which the filter is true. Throws RowFault. */
  filterLines(rows: BytesOrText): { text: Uint8Array; rows: number; kept: number };
  /** A stream of lines in, of kept lines out. The first line at fault is its error, after what is kept before it. */
  stream(): Transform;
}
/** The version of the C library. */
export function version(): string;
