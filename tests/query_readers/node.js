// each line of stdin is a query in hexadecimal; its answer has the names and the texts that one of node's readers reads
const reader = process.argv[2]

function pairsOf (query) {
  if (reader === 'URLSearchParams') return [...new URLSearchParams(query)]
  const read = reader === 'qs' ? require('qs').parse(query, { allowPrototypes: true }) : require('querystring').parse(query)
  return Object.entries(read)
}

const hex = (text) => Buffer.from(text).toString('hex')
const lines = require('fs').readFileSync(0, 'latin1').split('\n').slice(0, -1)
const answers = lines.map((line) => {
  // a server hands the bytes of a query on as they come
  const pairs = pairsOf(Buffer.from(line, 'hex').toString('latin1'))
  const texts = pairs.flatMap(([name, value]) => [value].flat().filter((it) => typeof it === 'string').map((it) => [name, it]))
  return texts.map(([name, value]) => `${hex(name)}=${hex(value)}`).join(' ')
})
process.stdout.write(answers.map((answer) => `${answer}\n`).join(''))
