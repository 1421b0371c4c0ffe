#!/usr/bin/env bash
# Makes the volume `bank`, of three replicas on three hosts, each of which runs glusterd (Debian: glusterfs-server). Give
# it on HOST1, with the addresses by which the hosts know one another, and a folder for the replica: on a disk of its own.
#
#     examples/cluster/volume.sh HOST1 HOST2 HOST3 [FOLDER [force]]
#
# `force` allows a folder on the system's disk. Given again, it sets the options again.
set -eu
folder="${4:-/srv/bank/replica}"
gluster() {
    command gluster --mode=script "$@"
}
gluster peer probe "$2"
gluster peer probe "$3"
for _ in $(seq 30); do
    if [ "$(gluster pool list | grep -c Connected)" = 3 ]; then break; fi
    sleep 1
done
[ "$(gluster pool list | grep -c Connected)" = 3 ] || { echo "volume: a host is not connected" >&2; exit 1; }
if ! gluster volume info bank >/dev/null 2>&1; then
    gluster volume create bank replica 3 "$1:$folder" "$2:$folder" "$3:$folder" ${5:+force}
fi

# A host that has waited this many seconds for another one takes it for gone.
gone=5
options=(
    # What is acknowledged has been written and synced on each replica that is there, and on two at least.
    performance.write-behind off
    performance.flush-behind off
    cluster.quorum-type auto
    # A host that was cut off has lost its lock when it comes back: it may not write through the files that it had open.
    client.strict-locks on
    # A host that takes over sees the lengths and bytes that the one before it left, not those of a second ago.
    performance.stat-prefetch off
    performance.quick-read off
    performance.io-cache off
    performance.read-ahead off
    performance.open-behind off
    # The serving host waits no longer for a replica, and a replica keeps the lock of a lost host no longer.
    network.ping-timeout "$gone"
    server.tcp-user-timeout "$gone"
    server.keepalive-time 2
    server.keepalive-interval 1
    server.keepalive-count 3
    client.tcp-user-timeout "$gone"
    client.keepalive-time 2
    client.keepalive-interval 1
    client.keepalive-count 3
    # Nobody else mounts it.
    auth.allow "$1,$2,$3"
)
gluster volume set bank "${options[@]}"
if ! gluster volume status bank >/dev/null 2>&1; then gluster volume start bank; fi
