#!/bin/bash
# The counter of one of three hosts: it follows the log that a quorum keeps, waits for the lock, and serves then.
#
#     examples/quorum/counter.sh FILE ADDRESS [MEMBER [NAME]]
#
# It ends with the counter's status, and lets the lock go then. Where that is 5, FILE isn't what the quorum has: nobody was told
# of what it has more. If PLAN names a plan, FILE is kept as FILE.differs then, and made anew by it. BANK is the program.
set -u
export LC_ALL=C ETCDCTL_API=3
file=$1 address=$2 member=${3:-127.0.0.1:2379} name=${4:-office}
turn=$(mktemp -u) && mkfifo -m 600 "$turn" || exit 3
# Open at both ends: the counter's input neither ends nor gives anything before the lock is had.
exec 3<>"$turn"
"${BANK:-bank}" serve "$file" "$address" --quorum "$member" --name "$name" --standby <&3 &
counter=$!
# Whoever has the lock says so, and keeps it as long as the counter runs.
(
    trap 'kill $! 2>/dev/null; exit' TERM
    while kill -0 $counter 2>/dev/null; do
        etcdctl --endpoints "$member" lock --ttl=3 "bank/$name/lock" -- \
            sh -c "[ ! -p $turn ] || echo >$turn; tail --pid=$counter -f /dev/null" >/dev/null &
        wait $! || sleep 0.5
    done
) &
trap 'kill $counter' TERM INT
wait $counter
status=$?
# A signal interrupts the wait, and the counter has ended then or ends soon.
if kill -0 $counter 2>/dev/null; then
    wait $counter
    status=$?
fi
kill $! 2>/dev/null
rm -f "$turn"
if [ $status = 5 ] && [ -n "${PLAN:-}" ]; then
    mv -f "$file" "$file.differs"
    mv -f "$file-wal" "$file.differs-wal" 2>/dev/null
    "${BANK:-bank}" init "$file" && "${BANK:-bank}" load "$file" "$PLAN" && status=3
fi
exit $status
