#!/usr/bin/env bash
# The evening of a bank: what serves it, or follows, stops for a moment, both files are copied on the same disk, and it
# starts again. Then the copy is audited and replayed, its first requests are compared with those of the evening before, and
# it goes to a place off this machine, from which it is fetched once more and compared. Ends with status 0 if all is well;
# any other status is an alarm, and a line on standard error says of what.
#
#     examples/evening.sh [--after-recovery] FILE [FOLDER [DIGESTS]]
#
# FILE is the bank. FOLDER, a new one each evening, gets the copy, its audit and its replay; without one it is named by the
# moment, in COPIES, /var/lib/bank-evening, and the oldest beyond KEEP, 30, go. The file DIGESTS gets a line `requests N
# digest D` each evening, and DIGESTS.plan the branches with their accounts and floors, which no digest has, DIGESTS.closing
# that of the closed numbers. Let them be where nobody who can write FILE can write: `digests` in COPIES is root's. A branch that was opened since the evening before
# is shown; one whose accounts or floor changed, or that went, is an alarm. After a recovery, whose postings have other
# moments, `--after-recovery` accepts what differs from the evening before, says so, and adds the new line.
#
# Set in the environment, or in /etc/bank/evening.conf for evening.service:
#
#     AWAY     a command that takes `put FOLDER`, and `get NAME FOLDER`, such as examples/away.sh
#     COPIES, KEEP
#     STOP, START, OPEN    commands that stop and start the counter, and one that succeeds once it answers, within
#              SECONDS_TO_OPEN, 300. Without them it is the unit `standby` if that is active, else `bank`
#     BANK     the program
set -eu -o pipefail
export LC_ALL=C
umask 077
bank="${BANK:-bank}"
recovered=no
if [ "${1:-}" = --after-recovery ]; then
    recovered=yes
    shift
fi
file="${1:?the bank}"
copies="${COPIES:-/var/lib/bank-evening}"
folder="${2:-$copies/$(date -u +%Y-%m-%dT%H.%M.%SZ)}"
name="$(basename "$file")"
copy="$folder/$name"
digests="${3:-$(dirname "$folder")/$name.digests}"

alarm() {
    echo "evening: $1" >&2
    exit 1
}
# An alarm, unless the bank was recovered since.
differs() {
    if [ "$recovered" = no ]; then alarm "$1"; fi
    echo "evening: accepted after a recovery: $1"
}
# `bank` is active once it answers, and a follower has heard of the leader since it stopped.
unit=bank
follows() { [ "$file.followed" -nt "$copy" ]; }
if [ -z "${STOP:-}" ]; then
    if systemctl --quiet is-active standby; then unit=standby; fi
    systemctl --quiet is-active "$unit" || alarm "neither bank nor standby is active"
fi
stop="${STOP:-systemctl stop $unit}"
start="${START:-systemctl start $unit}"
open="${OPEN:-$(if [ "$unit" = bank ]; then echo systemctl --quiet is-active bank; else echo follows; fi)}"
# A large bank takes its time to open.
opens() {
    for _ in $(seq "${SECONDS_TO_OPEN:-300}"); do
        if $open; then return; fi
        sleep 1
    done
    return 1
}
copy_both() {
    cp --reflink=auto "$file" "$copy" && if [ -e "$file-wal" ]; then cp --reflink=auto "$file-wal" "$copy-wal"; fi
}
# What `bank replay` and `bank digest` begin with, two lines, as one.
one_line() {
    head -2 "$1" | paste -sd ' ' - | tr -s ' '
}

# Both files or neither: a copy of the evening before isn't mixed with this one's.
if [ ! -e "$file" ]; then alarm "there is no $file"; fi
if [ -e "$copy" ] || [ -e "$copy-wal" ]; then alarm "$copy is there"; fi
mkdir -p "$folder"

# It starts again as soon as the files are copied, whatever the copying comes to, also if a signal ends it.
copied=no
trap '$start' EXIT
if $stop && copy_both; then copied=yes; fi
trap - EXIT
$start || alarm "the counter did not start"
if [ "$copied" = no ]; then alarm "$file was not copied"; fi
opens || alarm "it did not open: see \`journalctl -u $unit\`"

"$bank" audit "$copy" >"$copy.audit" || alarm "bank audit ended with status $?: see $copy.audit"
"$bank" replay "$copy" >"$copy.replay" || alarm "bank replay ended with status $?: see $copy.replay"
if [ -s "$digests" ]; then
    before="$(tail -1 "$digests")"
    count="$(cut -d ' ' -f 2 <<<"$before")"
    if ! "$bank" digest "$copy" "$count" >"$copy.digest"; then
        differs "$copy has not the $count requests of the evening before"
    elif [ "$(one_line "$copy.digest")" != "$before" ]; then
        differs "the first $count requests are not those of the evening before: see $copy.digest and $digests"
    fi
fi
"$bank" plan "$copy" | sort >"$copy.branches" || alarm "bank plan failed"
if [ -s "$digests.plan" ]; then
    changed="$(comm -23 "$digests.plan" "$copy.branches" | paste -sd ' ' -)"
    if [ -n "$changed" ]; then differs "not as the evening before: the branches (branch,accounts,floor) $changed"; fi
    comm -13 "$digests.plan" "$copy.branches" | sed 's/^/evening: opened since, or with another floor (branch,accounts,floor): /'
fi
cp "$copy.branches" "$digests.plan"
grep '^closing ' "$copy.replay" >"$copy.closing" || alarm "bank replay has no line of closed numbers"
if [ -s "$digests.closing" ] && ! cmp -s "$copy.closing" "$digests.closing"; then
    differs "the closed numbers, or the seal, are not those of the evening before"
fi
cp "$copy.closing" "$digests.closing"
one_line "$copy.replay" >>"$digests"
cp "$digests" "$copy.digests"
sync "$folder"/* "$folder" "$digests" "$digests".{plan,closing} "$(dirname "$digests")"

# What came back from the place away is what was replayed here: a copy that can be restored.
if [ "${AWAY:-}" ]; then
    back="$folder.back"
    rm -rf "$back"
    mkdir "$back"
    trap 'rm -rf "$back"' EXIT
    $AWAY put "$folder" || alarm "the copy did not go away"
    $AWAY get "$(basename "$folder")" "$back" || alarm "the copy did not come back"
    diff -rq "$folder" "$back" >&2 || alarm "the copy came back otherwise than it went away"
fi
if [ $# -lt 2 ]; then
    find "$copies" -mindepth 1 -maxdepth 1 -type d -name '????-??-??T*Z' | sort | head -n -"${KEEP:-30}" | xargs -r rm -r --
fi
tail -qn 1 "$copy.audit" "$copy.replay" "$digests"
