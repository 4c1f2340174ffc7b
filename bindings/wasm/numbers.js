'use strict';
// Made by bindings/make from include/odfilter.json.
const odfilterNumbers = {
  STATUS: {
    OK: 0, NULL: 1, OTHER_KIND: 2, NOT_UTF8: 3, TOO_SMALL: 4, MEMORY: 5, UNKNOWN_TYPE: 6, NO_FILTER: 7,
    MOMENT_NEEDED: 8, NOT_A_MOMENT: 9, UNKNOWN_NUMBER: 10, SCHEMA_FAULT: 16, TEXT_FAULT: 17, SYNTAX_FAULT: 18,
    TYPE_FAULT: 19, QUERY_FAULT: 20, JSON_FAULT: 21, ROW_FAULT: 22, EVAL_FAULT: 23, LINE_TOO_LONG: 24, TOO_COSTLY: 25,
    UNSAYABLE: 26, TOO_DEEP: 27, UNKNOWN_COLUMN: 28,
  },
  VERDICT: {
    FALSE: 0, TRUE: 1, NO_TRUTH_VALUE: 2,
  },
  // how many names each fault of a schema carries, by its number
  SCHEMA_NAMES: [0, 0, 0, 0, 1, 2, 1, 1, 2, 2, 0],
  ANSWER_SIZE: 96,
  // the fields of an answer: where each stands in it, and of how many bytes it is
  ANSWER: {
    fault: [0, 4], verdict: [4, 4], start: [8, 8], stop: [16, 8], number: [24, 8], length: [32, 8], first: [40, 8],
    rows: [48, 8], kept: [56, 8], pieceStart: [64, 8], pieceStop: [72, 8], valueStart: [80, 8], valueStop: [88, 8],
  },
  // what each call is given: h a handle or null, b bytes, w a buffer, m the variable of a handle, a an answer, f an
  // answer that is read, n a number of 4 bytes, u one of 8
  CALLS: {
    read_schema: 'bwma', find_type: 'hbm', types: 'hwa', check: 'hbma', check_query: 'hbma', check_url: 'hbwma',
    canonical: 'hwa', explain: 'hwa', needs_moment: 'ha', node_count: 'ha', lambda_depth: 'ha', property_paths: 'hwa',
    sql: 'hnbwa', new_sql: 'hnbma', sql_text: 'hnwa', sql_value: 'hnnwa', new_judge: 'm', new_judge_of: 'hm',
    set_moment: 'hb', set_bound: 'hu', judge: 'hhba', judge_next: 'hba', filter_lines: 'hhbwa', path: 'hwa',
    share: 'hm', fits: 'u', version: 'wa', status_name: 'nwa', fault_name: 'nnwa', fault_text: 'hnbwfa',
    fault_json: 'hnbwfa',
  },
};
if (typeof module !== 'undefined') module.exports = odfilterNumbers;
