#!/usr/bin/env bash
# Stops or starts the counters of all hosts, or asks whether one of them answers, for the evening on any of them:
#
#     export HOSTS="10.77.0.1 10.77.0.2 10.77.0.3"
#     STOP="counters.sh stop" START="counters.sh start" OPEN="counters.sh open" evening.sh /var/lib/bank/bank.db
#
# It needs `ssh` to each host as root. A host that doesn't answer holds up no other: `stop` fails, since its counter may
# run, and so does `start`, once it has started the rest. Leave a host that is gone out of HOSTS.
set -u
failed=0 answers=0
for host in $HOSTS; do
    on() {
        ssh -n -o BatchMode=yes -o ConnectTimeout=5 "$host" "$@"
    }
    case "$1" in
        stop | start) on systemctl "$1" bank || failed=1 ;;
        open) if on runuser -u www-data -- curl -sfo /dev/null -m 5 http://127.0.0.1:8080/health; then answers=1; fi ;;
    esac
done
if [ "$1" = open ]; then exit $((1 - answers)); fi
exit "$failed"
