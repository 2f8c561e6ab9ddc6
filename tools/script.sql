-- Prints a script: the part that record.sql and watch.sql share. `record.lines` is the list of its lines, each with its `call`, the `tag`
-- and `name` of a locked object, and the `rest`. Each name becomes one of a script, and no two objects get the same one.
WITH lines AS (
    SELECT at, line ->> 'call' AS call, line ->> 'tag' AS tag, line ->> 'rest' AS rest, line ->> 'name' AS name
    FROM jsonb_array_elements(current_setting('record.lines')::jsonb) WITH ORDINALITY AS it (line, at)
), cleaned AS (
    SELECT tag, min(at) AS first,
        left(regexp_replace(regexp_replace(min(name), '[^A-Za-z0-9_$.]', '_', 'g'), '^(?![A-Za-z_])', '_'), 58) AS name
    FROM lines WHERE name IS NOT NULL GROUP BY tag
), names AS (
    SELECT tag, first, name || coalesce('_' || nullif(row_number() OVER (PARTITION BY name ORDER BY first), 1), '') AS name FROM cleaned
), script AS (
    SELECT 0 AS part, 0 AS at, format('# What PostgreSQL %s locked for %s', current_setting('server_version'), :'record_of') AS line
    UNION ALL
    SELECT 1, first, CASE WHEN :'names' = 'off' THEN format('# %s %s', tag, name) ELSE format('name %s %s', name, tag) END FROM names
    UNION ALL
    SELECT 2, 0, format('session %s %s', :'session', (SELECT oid FROM pg_database WHERE datname = current_database()))
    UNION ALL
    SELECT 3, at, call || CASE WHEN :'names' = 'off' THEN tag ELSE coalesce(names.name, tag) END || rest FROM lines LEFT JOIN names USING (tag)
)
-- (a line of a script has at most 1,024 characters of ASCII)
SELECT left(regexp_replace(line, '[^\t -~]', '?', 'g'), 1000) FROM script ORDER BY part, at;
