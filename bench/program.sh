#!/usr/bin/env bash
# Measures the built program: seconds, peak of memory, and what comes of them.
#
#     bench/program.sh records                         `drive` and `post` of 20,000, 200,000 and a million records, the
#                                                      driver's, on two branches of 1,000 accounts
#     bench/program.sh branches [COUNT]                on 1, 10, 40 and 100 branches (BRANCHES: other counts) of 100,000
#                                                      accounts: `load`, opening (`post` of no record), `drive` of COUNT
#                                                      records (200,000), opening after them, and `audit`
# It needs Python and GNU time. TMPDIR picks the disk, BANK names another program.
set -eu
here=$(cd "$(dirname "$0")/.." && pwd)
bank=${BANK:-$here/crates/bank/out/bank}
test -x "$bank" || { echo "program.sh: build the program first: (cd crates/bank && rt run -- --help)" >&2; exit 2; }
work=$(mktemp -d)
trap 'rm -rf "$work"' EXIT
cd "$work"

# A new bank of so many branches with so many accounts each; `load` is measured.
begin() {
    rm -f bank.db*
    { echo branch,accounts; seq -f "%.0f,$2" "$1"; } >plan.csv
    "$bank" init bank.db >said
    timed load bank.db plan.csv
}
# Runs the program; the file of the command's name has the seconds, the processor's, and the peak of memory in KB.
timed() {
    command time -f '%e %U %S %M' -o "$1" "$bank" "$@" >said
}
tell() {
    awk -v what="$*" '{ printf("%s: %.1f s, %.1f s of the processor, %d MB\n", what, $1, $2 + $3, $4 / 1000) }' "$1"
}
is_driven() {
    test "$(cat said)" = "records $1 posted $1 refused 0"
}

# `post` of so many records on two branches of 1,000 accounts.
posted() {
    python3 "$here/tools/driver_vectors.py" 7 "$1" 1:1000 2:1000 | awk '{ printf("%-100s", $1) }' >drawn
    begin 2 1000
    timed post bank.db <drawn
    test "$(wc -c <said)" -eq $(($1 * 200))
    tell post of "$1" records
}

records() {
    for count in 20000 200000 1000000; do
        begin 2 1000
        timed drive bank.db --seed 7 --count $count
        is_driven $count
        tell drive of $count records
        posted $count
    done
}

branches() {
    for branches in ${BRANCHES:-1 10 40 100}; do
        begin "$branches" 100000
        tell load of "$branches" branches
        for what in post drive post audit; do
            timed $what bank.db $(if [ $what = drive ]; then echo --seed 7 --count "${1:-200000}"; fi) </dev/null
            tell $what of a file of "$(stat -c %s bank.db)" bytes
        done
    done
}

case "${1:-}" in
records | branches) what=$1; shift; "$what" "$@" ;;
*) echo "program.sh: records or branches" >&2; exit 2 ;;
esac
