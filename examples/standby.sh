#!/usr/bin/env bash
# A second bank that follows the counter of another machine: the counter gives its log over HTTP, curl carries it, and
# `bank follow` posts it, a second late.
#
#     examples/standby.sh LEADER FILE [OPTIONS OF CURL]
#     examples/standby.sh https://bank.example:8443 second.db --cacert bank.crt --cert standby.crt --key standby.key
#     examples/standby.sh --behind FILE [SECONDS]
#
# LEADER is nginx in front of the counter, as in examples/nginx.conf, whose file `followers` names the certificate. FILE is
# the bank that follows; where there is none it is made. FILE.plan is the leader's plan, which a branch comes to before the
# first entry that needs it. FILE.followed says how many requests were handed on, and at which second the leader last had
# no more: it is there once the leader has answered, and stays when the leader is lost. `--behind` prints it, and ends with
# status 5 if that is longer ago than SECONDS, or than the 48 hours that senders keep and send again.
#
# It goes on until it is stopped, at any moment. What fails is said once on standard error and tried again each second, at
# the leader and here. With status 4 it ends where the leader has fewer requests than FILE, or no log, and with 5 where an
# entry isn't what FILE has: then FILE is no copy, and has to be made anew. BANK is the program.
set -eu -o pipefail
export LC_ALL=C
if [ "${1:-}" = --behind ]; then
    if [ ! -e "${2:?the bank that follows}.followed" ]; then
        echo "standby: $2 has heard of no leader yet" >&2
        exit 5
    fi
    read -r count current <"$2.followed"
    ago=$(($(date +%s) - current))
    echo "$count requests, all that the leader had on $(date -d "@$current" '+%F %T %z'), $ago seconds ago"
    if ((ago <= ${3:-172800})); then exit 0; fi
    echo "standby: what senders keep begins later: ask them for what they sent since then" >&2
    exit 5
fi
bank="${BANK:-bank}"
leader="${1:?the address of the leader}"
file="${2:?the bank that follows}"
options=("${@:3}")
# Bytes of an entry, the most entries that one answer has, and how many answers are asked for at once.
entry=308 most=192 answers=1 current=0
work="$(mktemp -d)"
follower=
stop() {
    if [ "$follower" ]; then
        kill "$follower" || true
        wait "$follower" || true
    fi 2>/dev/null
    rm -rf "$work"
}
trap stop EXIT

said=
say() {
    if [ "$1" != "$said" ]; then echo "standby: $1" >&2; fi
    said="$1"
}
ends() {
    say "$2"
    exit "$1"
}

# What the leader answers, over one connection, up to the first fault.
ask() {
    codes="$(curl --silent --show-error --fail --fail-early --max-time 60 --write-out '%{http_code} ' "${options[@]}" \
        "$@" 2>"$work/fault")"
}
no_answer() {
    say "no answer of $leader: $(tail -1 "$work/fault")"
    return 1
}

# The entries after the first so many, and behind them the plan, which has the branch of each. An answer that isn't full
# has the last ones: what comes after it may have been asked for later.
fetch() {
    rm -f "$work"/{entries,part.*,new.plan}
    local asked=() place
    asked_at="$(date +%s)"
    for ((place = 0; place < answers; place++)); do
        asked+=(--output "$work/part.$place" "$leader/log/$(($1 + place * most))")
    done
    if ! ask "${asked[@]}"; then
        case "$codes" in
            404*) ends 4 "the leader keeps fewer than $1 requests, or has no log" ;;
            *"200 404 ") ;;
            *) no_answer || return ;;
        esac
    fi
    ask --output "$work/new.plan" "$leader/plan" || no_answer || return
    for ((place = 0; place < answers; place++)); do
        # There is no file of an answer without a body.
        touch "$work/part.$place"
        cat "$work/part.$place" >>"$work/entries"
        if (($(stat -c %s "$work/part.$place") < entry * most)); then break; fi
    done
    got=$(($(stat -c %s "$work/entries") / entry))
}

keep_plan() {
    cp "$work/new.plan" "$file.plan.new"
    mv "$file.plan.new" "$file.plan"
}

# One `follow` that gets whole answers, until it fails or the plan has changed.
follows() {
    rm -f "$work"/{in,out}
    mkfifo "$work"/{in,out}
    "$bank" follow "$file" "$file.plan" <"$work/in" >"$work/out" &
    follower=$!
    exec 3>"$work/in" 4<"$work/out"
    local count=0 at
    if read -r _ count <&4; then
        say "after $count"
        # The last that FILE has come once more: they are the leader's, or this isn't its copy.
        at=$((count > most ? count - most : 0))
        while kill -0 "$follower" 2>/dev/null; do
            if fetch "$at"; then
                if ((at + got < count)); then ends 4 "the leader keeps $((at + got)) requests, and $file has $count"; fi
                if ! cmp -s "$work/new.plan" "$file.plan"; then
                    keep_plan
                    break
                fi
                cat "$work/entries" >&3 || break
                at=$((at + got))
                said=
                if ((got < answers * most)); then current="$asked_at"; fi
                echo "$at $current" >"$file.followed.new"
                mv "$file.followed.new" "$file.followed"
                if ((got == answers * most)); then
                    answers=16
                    continue
                fi
            fi
            answers=1
            sleep 1
        done
    fi
    exec 3>&-
    cat <&4 >/dev/null
    exec 4<&-
    local status=0
    wait "$follower" || status=$?
    follower=
    return "$status"
}

if [ -e "$file.followed" ]; then read -r _ current <"$file.followed"; fi
if [ ! -e "$file" ]; then "$bank" init "$file" >/dev/null; fi
until [ -e "$file.plan" ]; do
    if fetch 0; then keep_plan; else sleep 1; fi
done
while :; do
    status=0
    follows || status=$?
    case "$status" in
        0) ;;
        2 | 4 | 5 | 12[67]) ends "$status" "\`bank follow\` ended with status $status" ;;
        *)
            say "\`bank follow\` ended with status $status, and is started again"
            sleep 1
            ;;
    esac
done
