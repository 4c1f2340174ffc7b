'use strict';
// Made by bindings/make from include/odfilter.json.
const STATUS = {
  OK: 0, NULL: 1, OTHER_KIND: 2, NOT_UTF8: 3, TOO_SMALL: 4, MEMORY: 5, UNKNOWN_TYPE: 6, NO_FILTER: 7, MOMENT_NEEDED: 8,
  NOT_A_MOMENT: 9, UNKNOWN_NUMBER: 10, SCHEMA_FAULT: 16, TEXT_FAULT: 17, SYNTAX_FAULT: 18, TYPE_FAULT: 19,
  QUERY_FAULT: 20, JSON_FAULT: 21, ROW_FAULT: 22, EVAL_FAULT: 23, LINE_TOO_LONG: 24, TOO_COSTLY: 25, UNSAYABLE: 26,
  TOO_DEEP: 27, UNKNOWN_COLUMN: 28,
};
const VERDICT = {
  FALSE: 0, TRUE: 1, NO_TRUTH_VALUE: 2,
};
const FORM = {
  POSTGRESQL_COLUMNS: 0, POSTGRESQL_JSON: 1, SQLITE_COLUMNS: 2, SQLITE_JSON: 3,
};
// the statements of conditions of SQL, and the kinds of values of their parameters
const STATEMENT = {
  OUTCOME: 0, KEEP: 1, FAULT: 2,
};
const VALUE = {
  WHOLE: 0, TEXT: 1, INSTANT: 2,
};
// how many names each fault of a schema carries, by its number
const SCHEMA_NAMES = [0, 0, 0, 0, 1, 2, 1, 1, 2, 2, 0];
// the names of faults, by their status and number
const FAULTS = {
  6: { 0: 'UnknownType' },
  7: { 0: 'NoFilter' },
  8: { 0: 'MomentNeeded' },
  9: { 0: 'NotAMoment' },
  16: {
    1: 'NotJson', 2: 'NotObject', 3: 'Version', 4: 'BadType', 5: 'BadProperty', 6: 'UnknownBase', 7: 'BaseCycle',
    8: 'PropertyTwice', 9: 'BadEnumMember', 10: 'TooLarge',
  },
  17: { 1: 'BadCharacter', 2: 'UnclosedString', 3: 'LeftOutLiteral', 4: 'RunOn', 5: 'TooLong' },
  18: { 1: 'Unexpected', 2: 'TooDeep' },
  19: {
    1: 'UnknownProperty', 2: 'UnknownFunction', 3: 'ArgumentCount', 4: 'ArgumentType', 5: 'OperandTypes',
    6: 'NotCollection', 7: 'VariableTaken', 8: 'BodyNotBoolean', 9: 'LiteralRange', 10: 'UnknownEnum',
    11: 'TypeLeftOut', 12: 'NotBoolean',
  },
  20: { 1: 'BadEscape', 2: 'NotUtf8', 3: 'Repeated', 4: 'OtherOption', 5: 'Disguised' },
  21: { 0: 'Json' },
  22: {
    1: 'NotObject', 2: 'Missing', 3: 'WrongKind', 4: 'NullNotAllowed', 5: 'OutOfRange', 6: 'BadText', 8: 'NotExpanded',
  },
  23: { 1: 'Overflow', 2: 'DivideByZero' },
  24: { 0: 'LineTooLong' },
  25: { 0: 'TooCostly' },
  26: { 0: 'Nul' },
  27: { 0: 'TooDeep' },
  28: { 0: 'UnknownColumn' },
};

module.exports = { STATUS, VERDICT, FORM, STATEMENT, VALUE, SCHEMA_NAMES, FAULTS };
