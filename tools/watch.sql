-- Records the locks of statements that can't run in a transaction (CREATE INDEX CONCURRENTLY, VACUUM ..), as a script of
-- lock_scenario, by watching them from another connection:
--
--     psql -X -v watched=NAME -f tools/watch.sql DATABASE > SCRIPT &
--     PGAPPNAME=NAME psql -X -c 'CREATE INDEX CONCURRENTLY ..' DATABASE
--
-- It waits until a session of that application name is connected to DATABASE, looks at its locks several thousand times a second, and
-- prints the script when that session has left. The server doesn't say which locks the session owns itself. These are told as the session's: an
-- advisory lock, and a table's of VACUUM, that is held from one transaction into the next; and each ShareUpdateExclusiveLock of a
-- statement with CONCURRENTLY, but for DETACH. A lock that is held for less than a look may be missed: let the table be large, or hold
-- the statement up.
--
-- More variables: `-v session=NAME` names the script's session (else `build`). The objects have names, with `name` lines; `-v names=off` writes their numbers.
-- `-v patience=SECONDS` says how long to wait for the session (else 60). It needs a server of version 14 or later, and psql 11 or later.

\set QUIET on
\set ON_ERROR_STOP on
\set SHOW_CONTEXT never
\pset format unaligned
\pset tuples_only on
\if :{?session} \else \set session build
\endif
\if :{?names} \else \set names on
\endif
\if :{?patience} \else \set patience 60
\endif
\if :{?oldest} \else \set oldest 140000
\endif
\if :{?watched} \else \set watched ''
\endif
SELECT CASE
    WHEN :SERVER_VERSION_NUM < :oldest
        THEN format('it needs a server of version %s or later, and this is %s', :oldest / 10000, current_setting('server_version'))
    WHEN :'watched' = '' THEN 'which session? (-v watched=NAME, its application name)'
    WHEN :'session' !~ '^[a-z0-9_]{1,16}$' THEN format('%L is no name of a session: 1 to 16 of a to z, 0 to 9 and _', :'session')
    ELSE ''
END AS fault \gset
SET record.fault = :'fault';
SET record.watched = :'watched';
SET record.patience = :'patience';
DO $watch$
DECLARE
    fault text := current_setting('record.fault');
    watched text := current_setting('record.watched');
    until timestamptz := clock_timestamp() + current_setting('record.patience')::float * interval '1 second';
    backend int;
    last jsonb;
    now jsonb;
    looks jsonb := '[]';
BEGIN
    IF fault <> '' THEN
        RAISE EXCEPTION 'watch.sql: %', fault;
    END IF;
    -- Each look is a transaction of its own, so that no statement waits for this one's snapshot.
    LOOP
        SELECT pid INTO backend FROM pg_stat_activity
        WHERE application_name = watched AND datname = current_database() AND pid <> pg_backend_pid() ORDER BY backend_start LIMIT 1;
        EXIT WHEN backend IS NOT NULL;
        IF clock_timestamp() > until THEN
            RAISE EXCEPTION 'watch.sql: no session with the application name % came', watched;
        END IF;
        COMMIT;
    END LOOP;
    WHILE now IS NOT NULL OR EXISTS (SELECT FROM pg_stat_get_activity(backend)) LOOP
        SELECT jsonb_agg(to_jsonb(l) - 'pid') INTO now FROM pg_locks l WHERE pid = backend;
        IF now IS DISTINCT FROM last THEN
            PERFORM pg_stat_clear_snapshot();
            looks := looks || jsonb_build_object('locks', now, 'query', (SELECT format('%s %s', query_start, query) FROM pg_stat_get_activity(backend)),
                'names', (SELECT jsonb_object_agg(c.oid, CASE WHEN pg_table_is_visible(c.oid) THEN '' ELSE nspname || '.' END || relname)
                FROM jsonb_to_recordset(now) AS it (relation oid) JOIN pg_class c ON c.oid = relation JOIN pg_namespace s ON s.oid = relnamespace));
            last := now;
        END IF;
        COMMIT;
    END LOOP;
    PERFORM set_config('record.looks', looks::text, false);
END
$watch$;

-- The lines of the script. `looks` are those that differed from the one before, `spans` the locks with the first and the last look in
-- a row that showed them, in one statement (or, of advisory locks, in any).
WITH looks AS (
    SELECT at, coalesce(nullif(look -> 'locks', 'null'), '[]') AS locks, look ->> 'query' AS query, look -> 'names' AS names,
        (SELECT min(virtualtransaction) FROM jsonb_to_recordset(nullif(look -> 'locks', 'null')) AS it (virtualtransaction text)) AS transaction
    FROM jsonb_array_elements(current_setting('record.looks')::jsonb) WITH ORDINALITY AS it (look, at)
), changes AS (
    SELECT at, query, query IS DISTINCT FROM lag(query) OVER by_time AS begins, transaction, lag(transaction) OVER by_time AS before FROM looks WINDOW by_time AS (ORDER BY at)
), seen AS (
    SELECT DISTINCT at, transaction, CASE locktype WHEN 'advisory' THEN '' ELSE query END AS query, mode, locktype, relation, names ->> relation::text AS name,
        CASE locktype
            WHEN 'relation' THEN format('%s/%s', database, relation)
            WHEN 'object' THEN format('%s/%s/%s/%s', database, classid, objid, objsubid)
            ELSE format('adv/%s/%s/%s/%s', database, classid, objid, objsubid)
        END AS tag
    FROM looks CROSS JOIN jsonb_to_recordset(locks)
        AS it (locktype text, database oid, relation oid, classid oid, objid oid, objsubid int, mode text)
    WHERE locktype IN ('object', 'advisory') OR relation >= 16384
), islands AS (
    SELECT *, at - row_number() OVER (PARTITION BY tag, mode, query ORDER BY at) AS island FROM seen
), spans AS (
    SELECT tag, mode, locktype, min(at) AS first, max(at) AS last, max(name) AS name, min(relation) AS relation,
        CASE
            WHEN locktype = 'advisory' OR query !~* '\mconcurrently\M' AND mode IN ('ShareUpdateExclusiveLock', 'AccessExclusiveLock') THEN count(DISTINCT transaction) > 1
            ELSE mode = 'ShareUpdateExclusiveLock' AND query ~* '\mconcurrently\M' AND query !~* '\mdetach\M'
        END AS is_session
    FROM islands GROUP BY tag, mode, locktype, query, island
), lines AS (
    SELECT at, 0 AS place, 'commit ' || :'session' AS call, '' AS tag, '' AS rest, NULL AS name FROM changes WHERE transaction <> before OR transaction IS NULL AND before IS NOT NULL
    UNION ALL
    SELECT last + 1, 1, format('unlock %s ', :'session'), tag, format(' %s%s', mode, CASE WHEN is_session THEN ' session' ELSE '' END), name
    FROM spans LEFT JOIN changes ON at = last + 1 WHERE is_session OR transaction = before
    UNION ALL
    SELECT at, 2, '# ' || line, '', '', NULL
    FROM changes CROSS JOIN regexp_split_to_table(substr(query, strpos(query, '+') + 4), '\r?\n') AS line WHERE begins AND query <> ' '
    UNION ALL
    SELECT first, 3 + (mode = 'AccessExclusiveLock')::int, format('lock %s ', :'session'), tag, format(' %s%s', mode, CASE WHEN is_session THEN ' session' ELSE '' END), name FROM spans
    UNION ALL
    SELECT min(at), 5, format('# waits for the end of the %s %s', CASE locktype WHEN 'virtualxid' THEN 'virtual transaction' ELSE 'transaction' END, coalesce(virtualxid, transactionid)), '', '', NULL
    FROM looks CROSS JOIN jsonb_to_recordset(locks) AS it (locktype text, virtualxid text, transactionid text, granted boolean)
    WHERE NOT granted AND locktype IN ('virtualxid', 'transactionid') GROUP BY locktype, virtualxid, transactionid
)
SELECT set_config('record.lines', coalesce((SELECT jsonb_agg(lines ORDER BY at, place, tag) FROM lines), '[]')::text, false) AS record_ \gset
\set record_of :watched
\ir script.sql
