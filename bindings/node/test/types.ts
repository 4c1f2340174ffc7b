// Only read by the compiler: tsc --strict --noEmit.
import { Conditions, Filter, FilterRefused, JudgeOptions, ODataError, RowFault, Schema, version } from '../index';

const item = Schema.read('{}').type('Mini.Item');
const options: JudgeOptions = { now: new Date(), bound: 1000n };
try {
  const filter: Filter = item.check('Active');
  const verdict: boolean | null = filter.judge(options).verdict(new Uint8Array(2));
  const conditions: Conditions = filter.sql('postgresql', { columns: { ID: 'key' }, now: '2026-01-01T00:00:00Z' });
  const parameter: number | bigint | string | undefined = conditions.fault?.parameters[0];
  const found: string | undefined = item.checkUrl('$filter=Active')?.canonical;
  const kept: Uint8Array = filter.judge().filterLines('').text;
  process.stdin.pipe(filter.judge().stream()).pipe(process.stdout);
  const types: readonly string[] = item.properties.map((it) => it.type ?? '?');
  console.log(verdict, parameter, found, kept.length, filter.nodeCount + 1, version().length, types);
  filter.dispose();
} catch (error) {
  if (error instanceof FilterRefused) console.log(error.span[0], error.byteSpan[1], error.pointed, error.kind);
  else if (error instanceof RowFault) console.log(error.path, error.line + 1, error.kept.length);
  else if (error instanceof ODataError) console.log(error.code, error.object?.class);
}
// @ts-expect-error: there is no such dialect
item.check('Active').sql('mysql');
// @ts-expect-error: a filter is a string
item.check(new Uint8Array(2));
// @ts-expect-error: checkUrl may find none
item.checkUrl('').canonical;
// @ts-expect-error: a schema is read, not made
new Schema();
// @ts-expect-error: what a filter has is not set
item.check('Active').text = '';
