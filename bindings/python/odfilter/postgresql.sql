-- The functions that conditions for PostgreSQL call: run this file once in each database, whose encoding is UTF8. In any
-- other it ends with an error and makes nothing. It can be run again.
-- Ask conditions in transactions that begin with `SET LOCAL jit = off`: else PostgreSQL may compile one for seconds.
-- All are immutable, so an index may be over them. Each returns null where an argument is null, and reads no table.
-- None calls what another schema of a session's search path has. Those of plpgsql set the path, and name what they call
-- with its schema. Those of SQL are bound when they are made, each name with its schema: PostgreSQL can write the body
-- of such a function into the query that calls it, as it never does with one that sets the path. Those that it would not
-- expand so are ones of plpgsql, which it calls more quickly.
DO $odf$ BEGIN
IF pg_catalog.getdatabaseencoding() OPERATOR(pg_catalog.<>) 'UTF8'::pg_catalog.name THEN
  RAISE EXCEPTION USING ERRCODE = 'feature_not_supported', MESSAGE = pg_catalog.concat(
    'conditions of odfilter need a database whose encoding is UTF8, and that of ', pg_catalog.current_database(),
    ' is ', pg_catalog.getdatabaseencoding());
END IF;
IF pg_catalog.current_setting('jit') OPERATOR(pg_catalog.=) 'on'::text THEN
  RAISE NOTICE 'jit is on: ask conditions of odfilter in transactions that begin with SET LOCAL jit = off';
END IF;
EXECUTE $functions$
CREATE SCHEMA IF NOT EXISTS odf;

-- the offset of a moment, in minutes
CREATE OR REPLACE FUNCTION odf.offset_minutes(m text) RETURNS integer
LANGUAGE plpgsql IMMUTABLE STRICT PARALLEL SAFE SET search_path = pg_catalog, pg_temp AS $$ BEGIN
  RETURN CASE WHEN pg_catalog.right(m, 1) IN ('Z', 'z') THEN 0
    ELSE (60 * pg_catalog.left(pg_catalog.right(m, 5), 2)::integer + pg_catalog.right(m, 2)::integer)
      * CASE pg_catalog.left(pg_catalog.right(m, 6), 1) WHEN '-' THEN -1 ELSE 1 END END; END $$;

-- the second of a moment, which may be left out
CREATE OR REPLACE FUNCTION odf.second(m text) RETURNS integer
LANGUAGE plpgsql IMMUTABLE STRICT PARALLEL SAFE SET search_path = pg_catalog, pg_temp AS $$ BEGIN
  RETURN CASE WHEN pg_catalog.substr(m, 17, 1) = ':' THEN pg_catalog.substr(m, 18, 2)::integer ELSE 0 END; END $$;

-- a moment as nanoseconds since 1970, in UTC
CREATE OR REPLACE FUNCTION odf.instant(m text) RETURNS numeric
LANGUAGE plpgsql IMMUTABLE STRICT PARALLEL SAFE SET search_path = pg_catalog, pg_temp AS $$
DECLARE
  day integer := pg_catalog.make_date(pg_catalog.left(m, 4)::integer, pg_catalog.substr(m, 6, 2)::integer,
    pg_catalog.substr(m, 9, 2)::integer) - pg_catalog.make_date(1970, 1, 1);
  -- the minutes of the day, and the seconds after them with their fraction
  minute integer := 60 * pg_catalog.substr(m, 12, 2)::integer + pg_catalog.substr(m, 15, 2)::integer;
  zone integer := CASE WHEN pg_catalog.right(m, 1) IN ('Z', 'z') THEN 1 ELSE 6 END;
  rest text := pg_catalog.substr(m, 17, pg_catalog.length(m) - 16 - zone);
BEGIN
  IF zone = 6 THEN
    minute := minute - CASE pg_catalog.substr(m, pg_catalog.length(m) - 5, 1) WHEN '-' THEN -1 ELSE 1 END
      * (60 * pg_catalog.substr(m, pg_catalog.length(m) - 4, 2)::integer + pg_catalog.right(m, 2)::integer);
  END IF;
  RETURN (86400::bigint * day + 60 * minute) * 1000000000::numeric
    + CASE WHEN rest = '' THEN 0 ELSE pg_catalog.rpad(pg_catalog.translate(rest, ':.', ''), 11, '0')::bigint END;
END $$;

-- the number of an enumeration's text: members by their names or numbers, between commas
CREATE OR REPLACE FUNCTION odf.enumeration_number(x text, names text[], numbers bigint[]) RETURNS bigint
LANGUAGE sql IMMUTABLE STRICT PARALLEL SAFE RETURN (
  SELECT pg_catalog.bit_or(COALESCE(numbers[pg_catalog.array_position(names, p)],
    CASE WHEN p OPERATOR(pg_catalog.~) '^[+-]?[0-9]+$'::text THEN p::bigint END))
  FROM (SELECT pg_catalog.btrim(piece, ' '::text) AS p
    FROM pg_catalog.string_to_table(x, ','::text) AS piece) AS pieces);

-- a text from the nth character on, which is counted from 0
CREATE OR REPLACE FUNCTION odf.substring(s text, n numeric) RETURNS text
LANGUAGE plpgsql IMMUTABLE STRICT PARALLEL SAFE SET search_path = pg_catalog, pg_temp AS $$ BEGIN
  RETURN pg_catalog.substr(s, CASE WHEN n < 0 THEN 1 WHEN n >= 1000000000 THEN 1000000001 ELSE n::integer + 1 END);
  END $$;

-- m characters of it at most
CREATE OR REPLACE FUNCTION odf.substring(s text, n numeric, m numeric) RETURNS text
LANGUAGE plpgsql IMMUTABLE STRICT PARALLEL SAFE SET search_path = pg_catalog, pg_temp AS $$ BEGIN
  RETURN pg_catalog.substr(s, CASE WHEN n < 0 THEN 1 WHEN n >= 1000000000 THEN 1000000001 ELSE n::integer + 1 END,
    CASE WHEN m <= 0 THEN 0 WHEN m >= 1000000000 THEN 1000000000 ELSE m::integer END); END $$;

CREATE OR REPLACE FUNCTION odf.ends_with(s text, t text) RETURNS boolean
LANGUAGE sql IMMUTABLE STRICT PARALLEL SAFE
RETURN pg_catalog.right(s, pg_catalog.length(t)) COLLATE pg_catalog."C" OPERATOR(pg_catalog.=) t;

-- a text without the white space of Unicode at its ends
CREATE OR REPLACE FUNCTION odf.trim(s text) RETURNS text
LANGUAGE sql IMMUTABLE STRICT PARALLEL SAFE
RETURN pg_catalog.btrim(s, E' \t\n\u000b\f\r\u0085\u00a0\u1680\u2000\u2001\u2002\u2003\u2004\u2005\u2006\u2007\u2008'
  '\u2009\u200a\u2028\u2029\u202f\u205f\u3000'::text);
$functions$;
END $odf$;
