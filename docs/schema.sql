-- Tables for what smq writes, for sqlite3 (3.39 or newer) and PostgreSQL: docs/FORMATS.md has their columns. An empty field is NULL.
--
--   sqlite3 month.db '.read docs/schema.sql' '.import --csv --skip 1 messages.csv messages' \
--     '.import --csv --skip 1 receipts.csv receipts' '.import --csv report.csv report' '.import --csv --skip 1 count.csv counts'
--
-- psql before 18 takes a line \. within an id or a source for the end of the file, and fails: put a blank behind it.
--
--   sed -i 's/^\\[.]$/& /' messages.csv receipts.csv
--
--   psql -v ON_ERROR_STOP=1 -f docs/schema.sql \
--     -c "\copy messages from 'messages.csv' with (format csv, header, encoding 'latin1')" \
--     -c "\copy receipts from 'receipts.csv' with (format csv, header, encoding 'latin1')" \
--     -c "\copy report from 'report.csv' with (format csv)" -c "\copy counts from 'count.csv' with (format csv, header)"
--
-- An id or a source may have any octets: by latin1 each is a character in PostgreSQL. sqlite3 keeps a session from 2^63 on as a rounded number.

CREATE TABLE messages (
  link bigint NOT NULL,
  session numeric(20) NOT NULL,
  "offset" bigint NOT NULL,
  moment bigint NOT NULL,
  number text,
  route text NOT NULL,
  network text NOT NULL,
  outcome text NOT NULL,
  error text,
  id text,
  response_offset bigint,
  receipt_session numeric(20),
  receipt_offset bigint,
  receipt_moment bigint,
  centre_delay bigint,
  key text,
  command text NOT NULL,
  source text,
  ton smallint NOT NULL
);
CREATE INDEX messages_by_place ON messages (session, "offset");
CREATE INDEX messages_by_key ON messages (link, key);

CREATE TABLE receipts (
  link bigint NOT NULL,
  session numeric(20) NOT NULL,
  "offset" bigint NOT NULL,
  moment bigint NOT NULL,
  id text NOT NULL,
  state text NOT NULL,
  interim text NOT NULL,
  error text NOT NULL,
  standing text NOT NULL,
  message_session numeric(20),
  message_offset bigint,
  key text NOT NULL,
  command text NOT NULL
);
CREATE INDEX receipts_by_place ON receipts (session, "offset");
CREATE INDEX receipts_by_key ON receipts (link, key);

-- `view` and its count, or `list` and its places: the value is the session then, the outcome its direction, and the count the offset.
CREATE TABLE report (
  kind text NOT NULL,
  name text NOT NULL,
  value text NOT NULL,
  outcome text NOT NULL,
  count bigint NOT NULL
);

-- What `smq count --by link,network,day,outcome` writes.
CREATE TABLE counts (
  link bigint NOT NULL,
  network text NOT NULL,
  day date NOT NULL,
  outcome text NOT NULL,
  messages bigint NOT NULL
);

-- PostgreSQL passes over the rest: comments within comments are comments there, and aren't in sqlite3, whose .import has '' for NULL.
/* /* */
CREATE TRIGGER messages_without_empty AFTER INSERT ON messages BEGIN
  UPDATE messages SET number = nullif(number, ''), error = nullif(error, ''), id = nullif(id, ''),
    response_offset = nullif(response_offset, ''), receipt_session = nullif(receipt_session, ''),
    receipt_offset = nullif(receipt_offset, ''), receipt_moment = nullif(receipt_moment, ''),
    centre_delay = nullif(centre_delay, ''), key = nullif(key, ''), source = nullif(source, '') WHERE rowid = new.rowid;
END;
CREATE TRIGGER receipts_without_empty AFTER INSERT ON receipts BEGIN
  UPDATE receipts SET message_session = nullif(message_session, ''), message_offset = nullif(message_offset, '')
    WHERE rowid = new.rowid;
END;
-- */
