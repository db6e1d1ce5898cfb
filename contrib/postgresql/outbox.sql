-- An outbox of events in a service's own PostgreSQL, version 13 or later. Load it once: psql -f outbox.sql
--
-- A service calls jumbetai.publish(..) in the transaction of what the event tells of. The event waits without a number,
-- so that no writer waits for another one. Whoever hands events on, jumbetaid or a script over psql, gives the numbers:
-- jumbetai.number() counts what was committed, of each source from 1 on and without a gap, and keeps it in
-- jumbetai.outbox until jumbetai.trim() lets go of what every region has.

CREATE SCHEMA IF NOT EXISTS jumbetai;

-- The last number of each source.
CREATE TABLE IF NOT EXISTS jumbetai.sources (
  source text PRIMARY KEY,
  last bigint NOT NULL CHECK (last >= 0)
);

-- Events that were committed and have no number yet, in the order in which they were written.
CREATE TABLE IF NOT EXISTS jumbetai.waiting (
  place bigserial PRIMARY KEY,
  source text NOT NULL,
  event text NOT NULL
);

-- Events with their numbers.
CREATE TABLE IF NOT EXISTS jumbetai.outbox (
  source text NOT NULL,
  number bigint NOT NULL,
  event text NOT NULL,
  PRIMARY KEY (source, number)
);

-- Writes an event in the transaction that is under way, and answers its id, which is a random one where none is given.
-- What a site would refuse is refused here, where it can be rolled back: a row that no site takes would hold up all
-- behind it. data is json and not jsonb, so that it stays as it was written.
CREATE OR REPLACE FUNCTION jumbetai.publish(
  source text, type text, data json DEFAULT NULL, subject text DEFAULT NULL, "time" timestamptz DEFAULT now(),
  id text DEFAULT NULL, extensions jsonb DEFAULT NULL
) RETURNS text LANGUAGE plpgsql AS $$
#variable_conflict use_variable
DECLARE
  own text := coalesce(id, gen_random_uuid()::text);
  words text := source || type || own || coalesce(subject, '');
  given text := data::text;
  made text;
BEGIN
  -- Line ends stand between tokens alone: an event is one line.
  IF strpos(given, E'\n') > 0 OR strpos(given, E'\r') > 0 THEN
    given := translate(given, E'\n\r', '  ');
  END IF;
  IF words IS NULL OR source = '' OR type = '' OR own = '' OR subject = '' THEN
    RAISE EXCEPTION 'source, type, id and subject have at least one character' USING ERRCODE = '22023';
  ELSIF words ~ '[\x01-\x1f\x7f-\x9f]' THEN
    RAISE EXCEPTION 'source, type, id and subject have no control characters' USING ERRCODE = '22023';
  ELSIF "time" NOT BETWEEN '0001-01-02Z' AND '9999-12-30Z' THEN
    RAISE EXCEPTION 'a time is of the years 1 to 9999' USING ERRCODE = '22023';
  -- What looks like such a number may stand in a text: then texts are taken away first.
  ELSIF given ~ '[0-9][.eE]|[0-9]{19}' AND regexp_replace(given, '"([^"\\]|\\.)*"', '""', 'g') ~ '[0-9][.eE]|[0-9]{19}' THEN
    RAISE EXCEPTION 'numbers in data are whole and have at most 18 digits; write others as texts' USING ERRCODE = '22023';
  ELSIF strpos(given, '\u') > 0 THEN
    -- Refuses escapes that are no characters, which a json may have.
    PERFORM given::jsonb;
  END IF;
  -- concat passes over what is null.
  made := concat('{"specversion":"1.0","id":', to_json(own), ',"source":', to_json(source), ',"type":', to_json(type), ',"subject":' || to_json(subject),
    ',"time":"' || to_char("time" AT TIME ZONE 'UTC', 'YYYY-MM-DD"T"HH24:MI:SS.US"Z"') || '"', ',"datacontenttype":"application/json","data":' || given);
  IF extensions IS NOT NULL THEN
    IF EXISTS (SELECT FROM jsonb_each(extensions) AS it WHERE it.key !~ '^[a-z0-9]{1,20}$' OR jsonb_typeof(it.value) <> 'string'
        OR it.key IN ('specversion', 'id', 'source', 'type', 'subject', 'time', 'sequence', 'data', 'datacontenttype', 'dataschema')) THEN
      RAISE EXCEPTION 'extensions are texts, named by small letters and digits, and not as another attribute' USING ERRCODE = '22023';
    END IF;
    made := made || coalesce((SELECT string_agg(',' || to_json(it.key) || ':' || it.value, '') FROM jsonb_each(extensions) AS it), '');
  END IF;
  IF octet_length(made) > 262000 THEN
    RAISE EXCEPTION 'an event has at most 262,000 bytes' USING ERRCODE = '22023';
  END IF;
  INSERT INTO jumbetai.waiting (source, event) VALUES (source, made || '}');
  RETURN own;
END $$;

-- Numbers what was committed, at most so many events, and answers how many that were. One at a time does so. Of two
-- events of which one's transaction waited for the other's, that one has the later place, and gets the later number:
-- where it is seen, the other is seen too.
CREATE OR REPLACE FUNCTION jumbetai.number(most integer DEFAULT 1000) RETURNS bigint LANGUAGE plpgsql SET search_path = pg_catalog AS $$
DECLARE
  numbered bigint;
BEGIN
  LOCK TABLE jumbetai.sources IN SHARE ROW EXCLUSIVE MODE;
  WITH next AS (
    SELECT place FROM jumbetai.waiting ORDER BY place LIMIT most
  ), gone AS (
    DELETE FROM jumbetai.waiting AS w USING next WHERE w.place = next.place RETURNING w.place, w.source, w.event
  ), counted AS (
    SELECT source, count(*) AS events FROM gone GROUP BY source
  ), raised AS (
    INSERT INTO jumbetai.sources AS s SELECT source, events FROM counted
      ON CONFLICT (source) DO UPDATE SET last = s.last + excluded.last RETURNING s.source, s.last
  ), placed AS (
    SELECT gone.source, gone.event, raised.last - counted.events + row_number() OVER (PARTITION BY gone.source ORDER BY gone.place) AS number
      FROM gone JOIN counted USING (source) JOIN raised USING (source)
  )
  INSERT INTO jumbetai.outbox SELECT source, number, left(event, -1) || ',"sequence":"' || lpad(number::text, 20, '0') || '"}' FROM placed;
  GET DIAGNOSTICS numbered = ROW_COUNT;
  RETURN numbered;
END $$;

-- Lets go of a source's events up to a number, which every region has to have, and answers how many that were.
CREATE OR REPLACE FUNCTION jumbetai.trim(of text, upto bigint) RETURNS bigint LANGUAGE sql SET search_path = pg_catalog AS $$
  WITH gone AS (DELETE FROM jumbetai.outbox WHERE source = of AND number <= upto RETURNING 1)
  SELECT count(*) FROM gone
$$;
