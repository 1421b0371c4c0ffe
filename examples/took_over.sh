#!/usr/bin/env bash
# After another machine took over: what the first one posted and the second one refused, or never got. The money has changed
# hands, so that a back office settles each: it posts it under a new number, or has it paid back.
#
#     examples/took_over.sh FIRST SECOND             a sheet of them, with what the second one has
#     examples/took_over.sh FIRST SECOND --encode    the same under new numbers, for `bank encode`
#
# FIRST is the file of the machine that was lost, SECOND that of the one which serves now, as the copy of an evening. It
# needs `sqlite3`, and reads copies of both.
set -eu
work="$(mktemp -d)"
trap 'rm -rf "$work"' EXIT
for it in first second; do
    cp "$1" "$work/$it.db"
    if [ -e "$1-wal" ]; then cp "$1-wal" "$work/$it.db-wal"; fi
    shift
done
columns="tid AS teller, number, aid AS account, amount, reference, CASE outcome WHEN 12 THEN 'WRONG BRANCH'
    WHEN 13 THEN 'NO ACCOUNT' WHEN 14 THEN 'OVER LIMIT' WHEN 17 THEN 'BELOW FLOOR' ELSE 'never sent again' END AS second"
if [ "${1:-}" = --encode ]; then
    columns='aid AS account, tid AS teller, abs(random() % 9999999999) + 1 AS number, amount, reference'
fi
cd "$work"
sqlite3 -header -csv :memory: "ATTACH 'first.db' AS first; ATTACH 'second.db' AS second;
    SELECT $columns FROM (
        SELECT one.ordinal, one.tid, one.number, one.aid, other.outcome, printf('%.2f', one.delta / 100.0) AS amount,
            rtrim(coalesce((SELECT reference FROM first.request_reference WHERE ordinal = one.ordinal), '')) AS reference
        FROM first.request one LEFT JOIN second.request other USING (tid, number)
        WHERE one.outcome = 0 AND other.outcome IS NOT 0)
    ORDER BY ordinal" | tr -d '\r'
