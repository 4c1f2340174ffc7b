'use strict';
const { FilterRefused, QueryRefused } = require('odfilter');

/** The standard's error body, by 400. */
function refuse(response, code, message, innererror) {
  response.statusCode = 400;
  response.setHeader('Content-Type', 'application/json');
  response.end(JSON.stringify({ error: { code, message, target: '$filter', innererror } }));
}

/** The request's address with another text as the value of its filter. */
function withValue(url, filter, text) {
  const start = url.indexOf('?') + 1;
  const [from, to] = filter.value;
  return url.slice(0, start + from) + encodeURIComponent(text) + url.slice(start + to);
}

/**
 * Middleware for Express and Connect. It passes on requests whose filter is accepted and has at most so many nodes,
 * with its canonical text in the address and in `request.query`, and answers others by 400. A handler has the filter as
 * `request.odataFilter`, until the answer is finished.
 */
function checked(entities, { mostNodes = 100 } = {}) {
  return (request, response, next) => {
    const mark = request.url.indexOf('?');
    let filter;
    try {
      filter = mark < 0 ? undefined : entities.checkUrl(Buffer.from(request.url.slice(mark + 1), 'latin1'));
    } catch (error) {
      const isRefused = error instanceof FilterRefused || error instanceof QueryRefused;
      return isRefused ? refuse(response, error.code, error.message, error.object) : next(error);
    }
    if (filter !== undefined) {
      response.on('close', () => filter.dispose());
      if (filter.nodeCount > mostNodes) return refuse(response, 'TooComplex', 'The filter has too many nodes.');
      request.odataFilter = filter;
      request.url = withValue(request.url, filter, filter.canonical);
      // Express 4 has read the query before; its reader would take the client's own `+` for a space
      if (Object.hasOwn(request, 'query')) {
        request.query = request.app.get('query parser fn')(request.url.slice(mark + 1));
      }
    }
    return next();
  };
}

module.exports = { checked };
