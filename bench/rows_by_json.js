// What `bench/peers` measures the program against: each line is read by JSON.parse, and written where its members are
// those that are kept. Nothing of a row is checked beyond that.
//
// node rows_by_json.js ROWS
const fs = require('node:fs');
const readline = require('node:readline');

const kept = [];
const write = () => fs.writeSync(1, kept.splice(0).join(''));
const lines = readline.createInterface({ input: fs.createReadStream(process.argv[2]), crlfDelay: Infinity });

lines.on('line', (line) => {
  const row = JSON.parse(line);
  if (row.Active && row.ID === 1 && row.Name === 'a') {
    kept.push(`${line}\n`);
  }
  if (kept.length === 1024) {
    write();
  }
});
lines.on('close', write);
