#!/usr/bin/env bash
# A place off this machine for the copies of evening.sh: a folder of another host, by rsync over ssh. In
# /etc/bank/evening.conf:
#
#     AWAY=/usr/share/doc/bank/examples/away.sh
#     PLACE=evenings@copies.example:
#
# with a key of its own, /etc/bank/away.key, and the other host's in /etc/bank/away.hosts. There, a user `evenings` has a folder
# of that name, and `restrict,command="rrsync -no-del evenings"` before the key in its authorized_keys: whoever has this
# machine can't delete what is there.
set -eu
away() {
    rsync --recursive --times --timeout=600 \
        --rsh='ssh -i /etc/bank/away.key -o UserKnownHostsFile=/etc/bank/away.hosts -o BatchMode=yes -o ConnectTimeout=20' "$@"
}
case "$1" in
    put) away "$2" "$PLACE/" && exit ;;
    get) away "$PLACE/$2/" "$3" && exit ;;
esac
exit 1
