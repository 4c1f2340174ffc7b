'use strict';
// A service behind Express that checks each $filter: `node server.js SCHEMA TYPE PORT`. It answers a request by the
// query that reaches its handler, by the paths that the filter reads, and by the filter as Express has read it.
const { readFileSync } = require('node:fs');
const express = require('express');
const { Schema } = require('odfilter');
const { checked } = require('./filter.js');

const [schema, type, port] = process.argv.slice(2);
const app = express();
app.use(checked(Schema.read(readFileSync(schema)).type(type)));
app.use((request, response) => {
  const [, query = ''] = request.url.split('?');
  const paths = request.odataFilter?.propertyPaths ?? [];
  const [, read = ''] = Object.entries(request.query).find(([name]) => /^\$?filter$/i.test(name)) ?? [];
  response.type('text/plain').send(`${query}\n${paths.join(' ')}\n${read}\n`);
});
const server = app.listen(Number(port), '127.0.0.1', () => {
  console.log(`http://127.0.0.1:${server.address().port}`);
});
