#!/usr/bin/env bash
# The whole bank at a look, **without a proof**: `rt try` compiles the program from its sources as they stand, with checks
# at run time, and runs it in a temporary folder as README's minute has it: a bank is made, its branches are opened, three
# records are posted, and sent again; then come the audit, the replay and a statement. examples/set_up.sh proves it first.
#
#     examples/look.sh
#
# It needs `rt` on the path, and four and a half minutes of a processor, nearly all of them for compiling.
set -eu -o pipefail
cd "$(dirname "$0")/.."
work="$(mktemp -d)"
trap 'rm -rf "$work"' EXIT
mkdir "$work/cases"
step=0

# One run: what is on its standard input, and its words.
play() {
    step=$((step + 1))
    cp "$1" "$work/cases/$step $2"
    printf '%s\n' "${@:2}" >"$work/cases/$step $2.args"
}
play /dev/null init "$work/my.db"
play /dev/null load "$work/my.db" "$PWD/examples/plan.csv"
play examples/records post "$work/my.db"
play examples/records post "$work/my.db"
play /dev/null audit "$work/my.db"
play /dev/null replay "$work/my.db"
play /dev/null statement "$work/my.db" 1

echo "Compiling the whole bank, which takes some four minutes; nothing of it is proved by this"
(cd crates/bank && rt try --cases "$work/cases") 2>&1 | fold -w 200 |
    sed -e '/^case=/d' -e 's/^== [0-9]* \(.*\)/\n$ bank \1/' -e 's/ *$//'
