#!/usr/bin/env bash
# Measures postings a second to a bank in a real file beside the C library's (`peer.c`), in rounds that go from one to the
# other, so that both meet the same disk. It takes three arguments: how many rounds, how many postings a measurement has,
# and after how many rows a posting is measured at last, beside one after 1,000.
# Each figure goes to `measured.csv` in the folder that it was called in, of which `table.py` makes the table.
#
# The built program is left there too, as `post`; a later run takes it where POST names it. Where BEFORE names one of
# another tree, it takes its turn in each round.
#
# It needs `rt`, a C compiler and SQLite's headers. TMPDIR picks the disk, and /dev/shm stands for none. It stands outside
# the gate, and proves what it runs: what is kept in the crates here is copied first.
set -eu
here=$(cd "$(dirname "$0")/.." && pwd)
rounds=${1:-7}
count=${2:-20000}
rows=${3:-1000000}
out=$PWD/measured.csv
post=${POST:-$PWD/post}
work=$(mktemp -d)
bare=$(mktemp -d -p /dev/shm)
trap 'rm -rf "$work" "$bare"' EXIT
below='message_records posting_rules posting_batch posting_core branch_loader load_driver sql_meanings'
below="$below store_rows bank_transactions walked_rows bank_store bank_files"

# The bench as a crate of its own, above copies of those that it measures.
build() {
    mkdir -p "$work/crates/post/src"
    for crate in $below; do
        mkdir "$work/crates/$crate"
        for part in specs src proofs out; do
            test ! -d "$here/crates/$crate/$part" || cp -a "$here/crates/$crate/$part" "$work/crates/$crate/$part"
        done
        grep -E "^$crate:" "$here/crates.txt" >>"$work/crates.txt"
    done
    cp "$here/bench/post.rt.in" "$work/crates/post/src/main.rt"
    echo 'post: message_records posting_core branch_loader load_driver bank_store bank_files sqlite' >>"$work/crates.txt"
    git -C "$work" init -q
    (cd "$work/crates/post" && { rt run || test -x out/post; })
    cp "$work/crates/post/out/post" "$post"
}

# The same postings in C.
build_peer() {
    cc -O2 -o "$work/peer" "$here/bench/peer.c" -lsqlite3
}

# One measurement of a system: what is measured, its name, the folder, and the arguments after the file.
measure() {
    what=$1 system=$2 folder=$3
    shift 3
    rm -f "$folder"/bench.db*
    case $system in
        ours) program=$post ;;
        before) program=$BEFORE ;;
        *)
            program=$work/peer
            python3 -c "import sqlite3, sys; sys.path.append('$here/tools'); import oracle
made = f'PRAGMA page_size = ${system#sqlite-};{oracle.SCHEMA};INSERT INTO meta VALUES (1, {oracle.VERSION}, 0)'
sqlite3.connect('$folder/bench.db').executescript(made)"
            ;;
    esac
    echo "$what,$system,$("$program" "$folder/bench.db" "$@")" >>"$out"
    rm -f "$folder"/bench.db*
}

# The systems on the same work.
each() {
    measure "$1" ours "${@:2}"
    measure "$1" sqlite-1024 "${@:2}"
    measure "$1" sqlite-4096 "${@:2}"
    test -z "${BEFORE:-}" || measure "$1" before "${@:2}"
}

test -n "${POST:-}" || build
build_peer
rm -f "$out"
for _ in $(seq "$rounds"); do
    each one "$work" 2 1000 0 "$count" 1
    each batch "$work" 2 1000 0 "$count" 64
    each many-rows-one "$work" 2 1000 200000 "$count" 1
    each many-rows-batch "$work" 2 1000 200000 "$count" 64
    each large-one "$work" 10 100000 0 "$count" 1
    each large-batch "$work" 10 100000 0 "$count" 64
    each bare-one "$bare" 2 1000 0 "$count" 1
    each bare-batch "$bare" 2 1000 0 "$count" 64
done
for _ in 1 2 3; do
    measure few-rows ours "$bare" 2 1000 1000 "$count" 64
    measure "rows-$rows" ours "$bare" 2 1000 "$rows" "$count" 64
done
python3 "$here/bench/table.py" "$out"
