-- Records the locks that the statements of a migration take, as a script of lock_scenario:
--
--     psql -X -v migration=FILE -f tools/record.sql DATABASE > SCRIPT
--
-- The statements of FILE run one after another in a transaction that is rolled back. After each of them the server itself says
-- which locks it added (pg_locks). Nothing is printed unless all of them ran; psql's status is 3 where one failed. Advisory locks
-- that the statements left to the session are given back at the end.
--
-- More variables: `-v session=NAME` names the script's session (else `mig`). The objects have names, with `name` lines; `-v names=off` writes their numbers.
-- It needs a server of version 14 or later, and psql 11 or later. tools/README.md says what it can't see.

\set QUIET on
\set ON_ERROR_STOP on
\set SHOW_CONTEXT never
\pset format unaligned
\pset tuples_only on
\pset null ''
\if :{?session} \else \set session mig
\endif
\if :{?names} \else \set names on
\endif
\if :{?oldest} \else \set oldest 140000
\endif
\if :{?migration} \else \set migration ''
\endif
-- Says :fault and ends psql with status 3, if there is one.
\set record_check 'SET record.fault = :\'fault\'; DO $$ BEGIN IF current_setting(\'record.fault\') <> \'\' THEN RAISE EXCEPTION \'record.sql: %\', current_setting(\'record.fault\'); END IF; END $$;'

SELECT CASE
    WHEN :SERVER_VERSION_NUM < :oldest
        THEN format('it needs a server of version %s or later, and this is %s', :oldest / 10000, current_setting('server_version'))
    WHEN :'migration' = '' THEN 'which file? (-v migration=FILE)'
    WHEN :'session' !~ '^[a-z0-9_]{1,16}$' THEN format('%L is no name of a session: 1 to 16 of a to z, 0 to 9 and _', :'session')
    ELSE ''
END AS fault \gset
:record_check

-- The statements of the file. `record.statements` is a list of objects: the `line` where a statement begins, its `text`, the same
-- text `bare` of comments and the semicolon, and whether it `runs` here or only begins or ends the recorder's own transaction.
\setenv RECORD_MIGRATION :migration
\set record_text `cat -- "$RECORD_MIGRATION"`
SET record.text = :'record_text';
DO $split$
DECLARE
    rest text := current_setting('record.text') || E'\n;';
    token text;
    line int := 1;    -- where the token begins
    first int := 1;   -- where the statement begins
    whole text := '';
    bare text := '';
    parentheses int := 0;
    blocks int := 0;  -- blocks of a function's body, which BEGIN ATOMIC begins
    ends boolean := false;
    statements jsonb := '[]';
BEGIN
    WHILE rest <> '' LOOP
        -- space, a comment (which may have comments in it), three kinds of quotes, a word, or another character
        token := substring(rest FROM '^(?:\s+|--[^\n]*|/\*(?:[^*/]|\*(?!/)|/(?!\*)|/\*(?:[^*/]|\*(?!/)|/(?!\*))*\*/)*\*/'
            '|[eE]''(?:[^''\\]|\\.|'''')*''|''[^'']*''|"[^"]*"|\w[\w$]*|.)');
        IF rest ~ '^\$(?!\d)\w*\$' THEN
            token := substring(rest FROM '^\$\w*\$');
            token := left(rest, nullif(strpos(substr(rest, length(token) + 1), token), 0) - 1 + 2 * length(token));
        END IF;
        IF token IS NULL OR token IN ('''', '"') OR rest ~ '^/\*' AND token = '/' THEN
            RAISE EXCEPTION 'record.sql: line % begins a quote or a comment that does not end', line;
        ELSIF token = '\' THEN
            RAISE EXCEPTION 'record.sql: line % has a command of psql, and only SQL can be recorded', line;
        END IF;
        rest := substr(rest, length(token) + 1);
        IF bare = '' AND token !~ '^(\s|--|/\*)' THEN
            first := line;
        END IF;
        line := line + length(token) - length(replace(token, E'\n', ''));
        whole := whole || token;
        bare := ltrim(bare || CASE WHEN token ~ '^(\s|--|/\*)' THEN ' ' ELSE token END);
        parentheses := parentheses + CASE token WHEN '(' THEN 1 WHEN ')' THEN -1 ELSE 0 END;
        IF bare ~* '^create\s+(or\s+replace\s+)?(function|procedure)\M' THEN
            blocks := blocks + CASE lower(token) WHEN 'begin' THEN 1 WHEN 'case' THEN sign(blocks)::int WHEN 'end' THEN -sign(blocks)::int ELSE 0 END;
        END IF;
        CONTINUE WHEN token <> ';' OR (parentheses > 0 OR blocks > 0) AND rest <> '';

        bare := rtrim(bare, ' ;');
        IF bare <> '' THEN
            IF ends THEN
                RAISE EXCEPTION 'record.sql: line % comes after the end of the transaction; record each transaction by itself', first;
            ELSIF bare ~* '^copy\M.*\mfrom\s+stdin\M' THEN
                RAISE EXCEPTION 'record.sql: line % copies from the file itself, and only SQL can be recorded', first;
            ELSIF bare ~* '^prepare\s+transaction\M' THEN
                RAISE EXCEPTION 'record.sql: line % prepares the transaction, which is to be rolled back', first;
            END IF;
            ends := bare ~* '^(commit|end|rollback|abort)\M' AND bare !~* '^rollback\s.*\mto\M';
            statements := statements || jsonb_build_object('n', jsonb_array_length(statements) + 1, 'line', first, 'bare', bare,
                'text', btrim(CASE rest WHEN '' THEN left(whole, -2) ELSE whole END, E' \t\r\n'),
                'runs', NOT ends AND bare !~* '^(begin|start\s+transaction)\M');
        END IF;
        whole := ''; bare := ''; parentheses := 0; blocks := 0;
    END LOOP;
    IF jsonb_array_length(statements) = 0 THEN
        RAISE EXCEPTION 'record.sql: the file has no statement';
    END IF;
    PERFORM set_config('record.statements', statements::text, false);
END
$split$;

-- Which locks of `held` this session has no more, and which it has beside them: `record_added`, in the order of the script. All
-- that it has now is `record_held`.
PREPARE record_look (int, jsonb) AS
WITH now AS (
    SELECT DISTINCT
        CASE locktype
            WHEN 'relation' THEN format('%s/%s', database, l.relation)
            WHEN 'object' THEN format('%s/%s/%s/%s', database, classid, objid, objsubid)
            ELSE format('adv/%s/%s/%s/%s', database, classid, objid, objsubid)
        END AS tag,
        mode, locktype, l.relation,
        CASE locktype
            WHEN 'relation' THEN CASE WHEN pg_table_is_visible(c.oid) THEN '' ELSE nspname || '.' END || relname
            WHEN 'object' THEN (SELECT type || '.' || identity FROM pg_identify_object(classid, objid, objsubid))
            ELSE format('advisory.%s', CASE objsubid WHEN 1 THEN ((classid::bigint << 32) | objid::bigint)::text ELSE format('%s.%s', classid, objid) END)
        END AS name,
        array_position('{relation,object,advisory}', locktype) * 2 + (coalesce(relkind, 'r') IN ('i', 'I'))::int AS place,
        array_position('{AccessShareLock,RowShareLock,RowExclusiveLock,ShareUpdateExclusiveLock,ShareLock,ShareRowExclusiveLock,ExclusiveLock}', mode) AS strength
    FROM pg_locks l
        LEFT JOIN pg_class c ON locktype = 'relation' AND c.oid = l.relation
        LEFT JOIN pg_namespace s ON s.oid = relnamespace
    WHERE pid = pg_backend_pid() AND granted AND locktype IN ('relation', 'object', 'advisory')
), held AS (
    SELECT * FROM jsonb_to_recordset($2) AS it (tag text, mode text, locktype text)
), changes AS (
    SELECT 'unlock' AS call, tag, mode, locktype, NULL::oid AS relation, NULL AS name, 0 AS place, 0 AS strength
    FROM held WHERE (tag, mode) NOT IN (SELECT tag, mode FROM now)
    UNION ALL
    SELECT 'lock', * FROM now WHERE (tag, mode) NOT IN (SELECT tag, mode FROM held)
)
SELECT
    (SELECT jsonb_agg(jsonb_build_object('tag', tag, 'mode', mode, 'locktype', locktype)) FROM now) AS record_held,
    (SELECT coalesce(jsonb_agg(jsonb_build_object('n', $1, 'at', at) || to_jsonb(changes))::text || E'\n', '')
    FROM (SELECT *, row_number() OVER (ORDER BY place, relation, tag, strength) AS at FROM changes) AS changes) AS record_added;

-- The statements run by a file that is written here: it looks at the locks after each of them.
\set record_file `mktemp`
\set record_script ''
\o :record_file
SELECT format('\! rm -f %s', :'record_file');
SELECT format($$
\o /dev/null
\set ON_ERROR_STOP off
%s
;
\set ON_ERROR_STOP on
\o
\if :ERROR
    \set record_state :LAST_ERROR_SQLSTATE
    ROLLBACK;
    SELECT 'the statement in line %s failed, and nothing is recorded'
        || CASE :'record_state' WHEN '25001' THEN '; tools/watch.sql records what can''t run in a transaction' ELSE '' END AS fault \gset
    :record_check
\endif
EXECUTE record_look(%s, :'record_held') \gset
\set record_script :record_script :record_added
$$, rtrim(text, ';'), line, n)
FROM jsonb_to_recordset(current_setting('record.statements')::jsonb) AS it (n int, line int, text text, runs boolean)
WHERE runs ORDER BY n;
\o
BEGIN;
-- (the second time it finds the locks that the look itself takes)
EXECUTE record_look(0, '[]') \gset
EXECUTE record_look(0, '[]') \gset
\i :record_file
ROLLBACK;

-- The lines of the script. A relation has the name that it had before; an advisory lock that is still there is the session's own.
WITH statements AS (
    SELECT * FROM jsonb_to_recordset(current_setting('record.statements')::jsonb) AS it (n int, text text, bare text, runs boolean)
), changes AS (
    SELECT it.* FROM regexp_split_to_table(:'record_script', E'\n') AS added
        CROSS JOIN jsonb_to_recordset(nullif(added, '')::jsonb) AS it (n int, at int, call text, tag text, mode text, locktype text, relation oid, name text)
), kept AS (
    SELECT format('adv/%s/%s/%s/%s', database, classid, objid, objsubid) AS tag, mode
    FROM pg_locks WHERE pid = pg_backend_pid() AND locktype = 'advisory'
), lines AS (
    SELECT n, place - 1000000 AS at, '# ' || line AS call, '' AS tag, '' AS rest, NULL AS name
    FROM statements CROSS JOIN regexp_split_to_table(text, '\r?\n') WITH ORDINALITY AS it (line, place)
    UNION ALL
    SELECT n, at,
        CASE WHEN call = 'lock' AND (
                locktype = 'relation' AND bare ~* '^(lock|alter\s+(table|index|materialized\s+view)\s+all\s+in\s+tablespace)\M.*\mnowait$'
                OR mode = 'ShareUpdateExclusiveLock' AND bare ~* '^analyze\s*\([^)]*skip_locked'
                OR locktype = 'advisory' AND bare ~* '\mpg_try_advisory_')
            THEN 'try' ELSE call END || ' ' || :'session' || ' ',
        tag, format(' %s%s', mode, CASE WHEN (tag, mode) IN (SELECT tag, mode FROM kept) THEN ' session' ELSE '' END),
        coalesce(CASE WHEN pg_table_is_visible(c.oid) THEN '' ELSE nspname || '.' END || relname, name)
    FROM changes JOIN statements USING (n) LEFT JOIN pg_class c ON c.oid = relation LEFT JOIN pg_namespace s ON s.oid = relnamespace
    UNION ALL
    (SELECT n, 1000000, CASE WHEN bare ~* '^(rollback|abort)' AND NOT runs THEN 'abort ' ELSE 'commit ' END || :'session', '', '', NULL
    FROM statements ORDER BY n DESC LIMIT 1)
)
SELECT set_config('record.lines', (SELECT jsonb_agg(lines ORDER BY n, at) FROM lines)::text, false) AS record_ \gset
\set record_of :migration
\ir script.sql
SELECT pg_advisory_unlock_all() \g /dev/null
