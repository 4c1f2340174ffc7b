"""Lines that hold nothing: 24 MB of them are passed over in less than a second of a processor, also of a busy one."""
import time

import odfilter
from suite_cases import stored

SIZE = 24_000_000
SECONDS = 1
BLANKS = [("line feeds", b"\n"), ("carriage returns and line feeds", b"\r\n")]
ROW = b'{"ID":1,"Name":"a","Active":true}\n'


def attacks(_):
    with odfilter.Schema(stored("schemas", "mini")) as schema, schema.type("Mini.Item") as item:
        with item.check("Active") as active, active.judge() as judge:
            for before in (b"", ROW):
                for name, line in BLANKS:
                    rows = before + line * (SIZE // len(line))
                    begun = time.process_time()
                    kept = judge.filter_lines(rows)
                    seconds = time.process_time() - begun
                    is_well = kept.text == before and seconds < SECONDS
                    yield f"{SIZE:,} bytes of {name} after {len(before)}", is_well, (seconds, kept.rows)
