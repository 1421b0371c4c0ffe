#!/usr/bin/env bash
# What no command of the bank tells: the size of its files, room on their disk, how far this machine follows behind another,
# when certificates end, and who reaches the counter's port. Ends with status 1 if one of them is an alarm, and a line on
# standard error says which.
#
#     examples/watch.sh FILE [FIGURES]
#
# FILE is the bank; the file FIGURES, if its folder is there, gets the figures as Prometheus reads them. An alarm is less
# than a tenth of the disk, or ten times the -wal; a follower that is LATE, 900 seconds, behind; a certificate, or the list of
# those that were revoked, that ends within two weeks; and a port that others than nginx reach, as after
# `nft flush ruleset`. One that goes on is told again each hour, if there is a
# STATE_DIRECTORY, as systemd gives one.
set -eu -o pipefail
export LC_ALL=C
file="${1:?the bank}" figures="${2:-}" alarms= told=
alarm() {
    echo "watch: $1" >&2
    alarms+="${1//[0-9]/}"$'\n'
}
figure() {
    told+="$1 $2"$'\n'
}
size() {
    stat -c %s "$1" 2>/dev/null || echo 0
}

log="$(size "$file-wal")"
read -r all room < <(df --block-size=1 --output=size,avail "$(dirname "$file")" | tail -1)
figure bank_file_bytes "$(size "$file")"
figure bank_log_bytes "$log"
figure bank_disk_free_bytes "$room"
if ((room < all / 10 || room < 10 * log)); then alarm "$((room >> 20)) MB are left on the disk of $file"; fi

if systemctl --quiet is-enabled standby 2>/dev/null; then
    requests=0 current=0
    if [ -e "$file.followed" ]; then read -r requests current <"$file.followed"; fi
    behind=$(($(date +%s) - current))
    figure bank_followed_requests "$requests"
    figure bank_followed_seconds_behind "$behind"
    if ((behind > ${LATE:-900})); then alarm "this machine is $behind seconds behind: see \`journalctl -u standby\`"; fi
fi

for it in /etc/teller/{bank,tellers}.crt /etc/teller/revoked /etc/standby/{leader,standby}.crt; do
    if [ ! -e "$it" ]; then continue; fi
    case "$it" in
        *.crt) ends="$(openssl x509 -noout -enddate -in "$it")" ;;
        *) ends="$(openssl crl -noout -nextupdate -in "$it")" ;;
    esac
    left=$(($(date -d "${ends#*=}" +%s) - $(date +%s)))
    figure "bank_certificate_seconds_left{file=\"$it\"}" "$left"
    if ((left < 14 * 86400)); then alarm "$it ends at ${ends#*=}"; fi
done

if curl -sfo /dev/null -m 5 http://127.0.0.1:8080/health; then
    alarm "any user of this machine reaches the counter: \`systemctl reload bank\`"
fi

if [ "$figures" ] && [ -d "$(dirname "$figures")" ]; then
    printf %s "$told" >"$figures.new"
    mv "$figures.new" "$figures"
fi
if [ "${STATE_DIRECTORY:-}" ]; then
    said="$STATE_DIRECTORY/said"
    if [ "$(find "$said" -mmin -60 2>/dev/null)" ] && cmp -s "$said" <<<"$alarms"; then exit 0; fi
    cat >"$said" <<<"$alarms"
fi
[ -z "$alarms" ]
