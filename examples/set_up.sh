#!/usr/bin/env bash
# The first minutes: proves and builds the program, makes a bank in the file first.db, posts the three records of
# examples/records to it, and prints the replies as a sheet.
#
#     examples/set_up.sh
#
# It needs `rt` on the path, and Python. If nothing has changed since, or `.ci/run` has passed here, nothing is proved again.
# Given again, it gets the same replies, and posts nothing twice.
set -eu
cd "$(dirname "$0")/.."
bank=crates/bank/out/bank

echo "Proving and building the program: some 55 minutes on four cores if nothing is cached"
python3 tools/build.py bank

play() {
    echo "\$ bank $*"
    "$bank" "$@"
}

if [ ! -e first.db ]; then play init first.db; fi
play load first.db examples/plan.csv
echo "\$ bank post first.db < examples/records | bank decode --words"
"$bank" post first.db <examples/records | "$bank" decode --words
play audit first.db
echo "$PWD/first.db is a bank; $bank --help says what else can be done with it."
