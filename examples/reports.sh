#!/usr/bin/env bash
# What a back office asks every day, as SQL on a copy of a bank, for the day that is named:
#
#     [ZONE=+01:00] examples/reports.sh FILE [YYYY-MM-DD] [FOLDER]
#
# Days and times are those of UTC, or of a clock that is ZONE ahead of it, as for `bank statement`.
#
# It needs `sqlite3`. No command may run on FILE while it is copied: see examples/evening.sh, whose copy serves as FILE.
# FOLDER gets postings.csv, all postings; without it there is none. The day is today if none is named.
#
# The views are in a file of their own, over the bank that it attaches: one in the bank's file, as with OVER, the bank
# could not read.
set -eu
file="${1:?the bank, or a copy of it}"
day="${2:-$(date -u +%F)}"
folder="${3:-}"
if [ "$(date -u -d "$day" +%F 2>/dev/null)" != "$day" ]; then
    echo "reports: $day is no date such as $(date -u +%F)" >&2
    exit 2
fi
zone="${ZONE:-+00:00}"
if ! [[ "$zone" =~ ^[+-][0-9]{2}:[0-9]{2}$ ]]; then
    echo "reports: $zone is no zone such as +01:00" >&2
    exit 2
fi
work="$(mktemp -d)"
trap 'rm -rf "$work"' EXIT
cp "$file" "$work/copy.db"
if [ -e "$file-wal" ]; then cp "$file-wal" "$work/copy.db-wal"; fi

ask() {
    echo "== $1"
    (cd "$work" && sqlite3 -header "-${3:-column}" -cmd ".read views.sql" :memory: "$2")
}

# A posting with its time, its amount in units and hundredths, and its reference.
cat >"$work/views.sql" <<END
ATTACH 'copy.db' AS bank;
CREATE TEMP VIEW posting AS SELECT ordinal, datetime(moment, 'unixepoch', '$zone') AS time, bid AS branch, tid AS teller,
    aid AS account, delta, printf('%+.2f', delta / 100.0) AS amount,
    coalesce(rtrim(reference), '') AS reference
  FROM history LEFT JOIN request_reference USING (ordinal);
CREATE TEMP VIEW today AS SELECT * FROM posting WHERE date(time) = '$day';
CREATE TEMP TABLE outcome (code INTEGER PRIMARY KEY, name TEXT);
INSERT INTO outcome VALUES (12, 'WRONG BRANCH'), (13, 'NO ACCOUNT'), (14, 'OVER LIMIT'), (17, 'BELOW FLOOR');
END

ask "$day: totals by branch" "SELECT branch, count(*) AS postings,
    printf('%+.2f', sum(max(delta, 0)) / 100.0) AS paid_in, printf('%+.2f', sum(min(delta, 0)) / 100.0) AS paid_out,
    printf('%+.2f', sum(delta) / 100.0) AS net FROM today GROUP BY branch ORDER BY branch"

ask "$day: postings" "SELECT ordinal, time, branch, teller, account, amount, reference FROM today ORDER BY ordinal"

# The running balance is the sum of the postings so far; the last one of an account is its balance.
ask "All statements" "SELECT account, ordinal, time, teller, amount,
    printf('%.2f', sum(delta) OVER (PARTITION BY account ORDER BY ordinal) / 100.0) AS balance, reference
  FROM posting ORDER BY account, ordinal"

# A refusal is kept without a moment: those of a day are between two of its postings.
ask "Refused and kept, by teller" "SELECT tid AS teller, name AS refused_as, count(*) AS times, min(ordinal) AS first,
    max(ordinal) AS last FROM request JOIN outcome ON code = outcome GROUP BY tid, name ORDER BY tid, name"

if [ -n "$folder" ]; then
    mkdir -p "$folder"
    ask "postings" "SELECT ordinal, time, branch, teller, account, amount, reference FROM posting ORDER BY ordinal" csv |
        tail -n +2 >"$folder/postings.csv"
    echo "== $(($(wc -l <"$folder/postings.csv") - 1)) postings in $folder/postings.csv"
fi
