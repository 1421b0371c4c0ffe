#!/usr/bin/env bash
# Tries what README, docs/USING.md and examples/ show, with the built program: README's minute as a script and pasted
# into a terminal, the reports in SQL, the evening's copy, a recovery, each with what they refuse; and a bank that
# follows another one.
#
#     tools/try_examples.sh [TIMES]
#
# It needs curl, sqlite3 and script. The minute is run TIMES times, 10 if that isn't said.
set -eu
top="$(cd "$(dirname "$0")/.." && pwd)"
times="${1:-10}"
bank="$top/crates/bank/out/bank"
work="$(mktemp -d)"
server=
stop() {
    for it in $server $(cat follower); do kill "$it" || true; done 2>/dev/null
    rm -rf "$work"
}
trap stop EXIT
cd "$work"

fail() {
    echo "try_examples: $1" >&2
    exit 1
}
same() {
    [ "$1" = "$2" ] || fail "$3: $1 is not $2"
}
lacks() {
    if [ -e "$1" ]; then fail "$1 is there"; fi
}

# README's commands from "A minute with it" to the next heading.
sed -n '/^## A minute/,/^## Beside/s/^    //p' "$top/README.md" >minute.sh
[ "$(wc -l <minute.sh)" -gt 10 ] || fail "README has no minute"

# A folder like the top of a checkout.
folder() {
    mkdir "$1"
    ln -s "$top/crates" "$top/examples" "$1/"
}
# Whether a line ends so, but for one that is pasted, which has `# ` in it. What `serve` and `drive` say at a terminal each
# second may stand before it.
ends_so() {
    grep -v '# ' "$1" | grep -q "$2\$"
}
check() {
    grep -q '^CONSISTENT$' "$1" || fail "$1 has no CONSISTENT"
    ends_so "$1" 'account 1 balance 750' || fail "$1 has no balance of account 1"
    ends_so "$1" 'records 1000 posted 1000 refused 0' || fail "$1 has no drive"
    same "$(grep -c POSTED "$1")" 7 "replies in $1"
    # At a terminal `serve` says how many requests it opened.
    if grep 'bank: ' "$1" | grep -qv ' requests, opened in '; then fail "$1 has a fault"; fi
}
# A terminal ends its lines with a carriage return, and shows what is pasted, too.
for number in $(seq "$times"); do
    folder "script-$number"
    (cd "script-$number" && timeout 300 bash -e ../minute.sh >../script 2>&1) || fail "the minute failed: $(cat script)"
    check script
    folder "pasted-$number"
    (cd "pasted-$number" && cat ../minute.sh - <<<exit | TERM=dumb timeout 300 script -qc 'bash --norc -i' /dev/null |
        tr -d '\r' >../pasted)
    check pasted
done
echo "README's minute: $times times as a script, and $times times pasted into a terminal line by line"

cd script-1
day="$(date -u -d "@$(sqlite3 my.db 'SELECT max(moment) FROM history')" +%F)"
"$top/examples/reports.sh" my.db "$day" out >reports
same "$(grep -c . out/postings.csv)" "$(($(sqlite3 my.db 'SELECT count(*) FROM history') + 1))" "lines of postings.csv"
same "$(awk '/totals by branch/ { on = 1 } /: postings/ { on = 0 } on && /^[0-9]/ { sum += $5 } END { printf "%.2f", sum }' reports)" \
    "$(sqlite3 my.db 'SELECT printf("%.2f", sum(balance) / 100.0) FROM branch')" "the totals of $day"
"$bank" audit my.db | grep -q "^CONSISTENT$" || fail "reports.sh changed the bank"
if "$top/examples/reports.sh" my.db 2026-02-30 >/dev/null 2>&1; then fail "reports.sh took another date"; fi
echo "reports.sh"

# Evenings of copies of this bank, in the folder `safe`.
evening() {
    rm -f started
    STOP="${stop:-true}" START="touch started" OPEN="${open:-test -e started}" BANK="$bank" \
        "$top/examples/evening.sh" "$@" >said 2>&1
}
is_started() {
    [ -e started ] || fail "the counter was not started again: $(cat said)"
}
good_evening() {
    evening "$@" || fail "an evening: $(cat said)"
    same "$(cut -d ' ' -f 1 said | paste -sd ' ')" "CONSISTENT AGREES requests" "an evening"
    is_started
}
alarms() {
    if evening "${@:2}"; then fail "no alarm: $1"; fi
    grep -q "^evening: .*$1" said || fail "another alarm than $1: $(cat said)"
}
good_evening my.db safe/1
alarms "my.db is there" my.db safe/1
alarms "there is no" lost.db safe/2
lacks started
"$bank" drive my.db --seed 9 --count 100 >/dev/null
good_evening my.db safe/2
same "$(wc -l <safe/my.db.digests)" 2 "lines of digests"
count="$(sqlite3 my.db 'SELECT decided FROM meta')"
same "$(cut -d ' ' -f 2 safe/my.db.digests | paste -sd ' ')" "6 $count" "requests of two evenings"
stop=false alarms "not copied" my.db safe/3
is_started
# What stands in the file is changed by hand: a sum, two balances, a floor, a moment; and a file of another day.
changed() {
    cp my.db changed.db
    if [ -e my.db-wal ]; then cp my.db-wal changed.db-wal; fi
    sqlite3 changed.db "$1"
    alarms "$2" changed.db "safe/$3" safe/my.db.digests
    is_started
}
changed 'UPDATE teller SET balance = balance + 1 WHERE tid = 1' 'bank audit ended with status 5' 4
changed 'UPDATE account SET balance = balance + 300 - 200 * aid WHERE aid < 3' 'bank replay ended with status 5' 5
changed 'INSERT INTO branch_floor VALUES (1, -999999999999)' 'not as the evening before: the branches' 12
changed 'INSERT INTO closing VALUES (0, 0)' 'the closed numbers, or the seal' 13
changed 'UPDATE history SET moment = moment - 1 WHERE ordinal = 1' 'are not those of the evening before' 6
evening --after-recovery changed.db safe/8 safe/recovered.digests || fail "an evening after a recovery: $(cat said)"
cp safe/my.db.digests safe/recovered.digests
evening --after-recovery changed.db safe/9 safe/recovered.digests || fail "an evening after a recovery: $(cat said)"
grep -q "^evening: accepted after a recovery: .*are not those" said || fail "an evening that says nothing: $(cat said)"
evening changed.db safe/10 safe/recovered.digests || fail "an evening after that one: $(cat said)"
stop=true open=false SECONDS_TO_OPEN=1 alarms "it did not open" my.db safe/11
alarms "has not the $count requests" safe/1/my.db safe/7 safe/my.db.digests

# A place away, and the newest three copies that are kept.
mkdir away
cat >away.sh <<'END'
case "$1" in
    put) cp -r "$2" away/ ;;
    get) cp -r "away/$2/." "$3" && if [ -e spoilt ]; then rm "$3"/my.db; fi ;;
esac
END
export AWAY="bash away.sh" COPIES=evenings KEEP=3
for it in 1 2 3 4; do
    good_evening my.db
    sleep 1
done
same "$(ls -d evenings/*T* | wc -l) $(ls away | wc -l) $(stat -c %a evenings/my.db.digests)" "3 4 600" "copies here and away"
touch spoilt
alarms "came back otherwise" my.db
unset AWAY COPIES KEEP
echo "evening.sh"

# Recovery as in docs/USING.md: the copy of the first evening gets what was posted since.
for end in "" -wal; do
    if [ -e "safe/1/my.db$end" ]; then cp "safe/1/my.db$end" "recovered.db$end"; fi
done
"$bank" plan my.db >plan.csv
same "$("$bank" load recovered.db plan.csv)" "opened 0 already 2 differs 0" "the plan of a bank"
"$bank" export my.db --after 6 >rest
same "$(wc -c <rest)" "$((100 * (count - 6)))" "bytes of export"
"$bank" post recovered.db <rest >replies
"$bank" export my.db | "$bank" post recovered.db | tail -c +1201 | cmp - replies
for it in audit export plan; do
    cmp <("$bank" "$it" my.db) <("$bank" "$it" recovered.db) || fail "$it of a bank that was recovered"
done
echo "recovery"

# A table that another hand defined anew is refused, and its rows are put into a new file as docs/USING.md says.
cp my.db odd.db
if [ -e my.db-wal ]; then cp my.db-wal odd.db-wal; fi
sqlite3 odd.db "CREATE TABLE made AS SELECT * FROM request; DROP TABLE request; ALTER TABLE made RENAME TO request"
status=0
"$bank" audit odd.db 2>said || status=$?
same "$status $(cat said)" "4 bank: table request is defined otherwise" "a table of another hand"
sed -n '/^## Is this file/,/^## Is this the/s/^    //p' "$top/docs/USING.md" | sed -n '/^bank init fresh/,/fresh.db$/p' >odd.sh
PATH="$top/crates/bank/out:$PATH" bash -e odd.sh >said 2>&1 || fail "the rows of another hand's tables: $(cat said)"
cmp <(grep -v '^created' said) <("$bank" replay my.db) || fail "another bank than the one before: $(cat said)"
echo "a table that is defined otherwise"

"$bank" init curl.db >/dev/null
"$bank" load curl.db "$top/examples/plan.csv" >/dev/null
# A bank that follows, the evening of its machine, and a leader that has less.
leads() {
    rm -f leads
    "$bank" serve "$1" 127.0.0.1:0 >leads &
    server=$!
    until grep -qs listening leads; do sleep 0.1; done
    base=http://$(cut -d ' ' -f 2 leads)
}
followed() {
    for _ in $(seq 300); do
        if [ "$(cut -d ' ' -f 1 second.db.followed 2>/dev/null)" = "$1" ]; then return; fi
        sleep 0.1
    done
    fail "second.db has not followed to $1: $(cat follows)"
}
cat >second.sh <<END
case "\$1" in
    start)
        BANK="$bank" "$top/examples/standby.sh" "\$(cat leader)" second.db 2>>follows &
        echo \$! >follower
        ;;
    stop) kill "\$(cat follower)" && while kill -0 "\$(cat follower)" 2>/dev/null; do sleep 0.1; done ;;
esac
END
"$bank" drive curl.db --seed 5 --count 500 >/dev/null
count=$(($("$bank" export curl.db | wc -c) / 100))
leads curl.db
echo "$base" >leader
bash second.sh start
followed "$count"
STOP="bash second.sh stop" START="bash second.sh start" OPEN=follows BANK="$bank" \
    "$top/examples/evening.sh" second.db safe/second >said 2>&1 || fail "an evening of a bank that follows: $(cat said)"
printf '%-100s' DC01000000000001000000010000019000000001+0000000500 >record
curl -sS --max-time 20 --data-binary @record -o reply "$base/post"
count=$((count + 1))
followed "$count"
bash second.sh stop
"$top/examples/standby.sh" --behind second.db 60 | grep -q "^$count requests, all that the leader had on " || fail "how far it is behind"
if "$top/examples/standby.sh" --behind second.db -1 >/dev/null 2>&1; then fail "a follower that is behind"; fi
# What was handed on is posted a moment later. A stop before that leaves it to the next start.
for pause in 1 2 4 8; do
    if "$bank" digest second.db "$count" >/dev/null 2>&1; then break; fi
    bash second.sh start
    followed "$count"
    sleep "$pause"
    bash second.sh stop
done
kill "$server"
wait "$server" || true
cmp <("$bank" digest curl.db "$count") <("$bank" digest second.db "$count") || fail "second.db has other requests"
"$bank" init less.db >/dev/null
leads less.db
status=0
BANK="$bank" "$top/examples/standby.sh" "$base" second.db >said 2>&1 || status=$?
kill "$server"
wait "$server" || true
same "$status" 4 "following a leader that has less ($(cat said))"
echo "standby.sh"
