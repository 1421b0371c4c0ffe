#!/usr/bin/env python3
"""What comes of a bank when a machine is lost beneath 16 tellers who post over HTTP. Each round something fails at a
random moment, and is then checked: each answered posting stands once, with its reply, and the books agree.

    tools/failover.py quorum [ROUNDS]      over a log that a quorum keeps, as by examples/quorum: failover_quorum.py
    tools/failover.py volume [ROUNDS]      on the replicated volume of examples/cluster: failover_volume.py says how
    tools/failover.py follower [ROUNDS]    with another machine that follows, as by examples/standby.sh:
                                           failover_follower.py
    tools/failover.py rates [ROUNDS]       postings a second over the quorum, the volume and the disk: failover_rates.py

100 rounds, if none are said. KEEP in the environment keeps the folder."""
import importlib
import os
import shutil
import signal
import sys
import tempfile

from serve_client import Failed, need_program


def main():
    kind, count = (sys.argv[1:] + ["", "100"][len(sys.argv) - 1:])[:2]
    if kind not in ("quorum", "volume", "follower", "rates"):
        sys.exit(__doc__)
    need_program()
    signal.signal(signal.SIGTERM, lambda *_: sys.exit("failover: stopped"))
    folder, rounds = tempfile.mkdtemp(prefix="failover-"), []
    drill = importlib.import_module("failover_" + kind).Drill(folder)
    try:
        drill.begin()
        for number in range(1, int(count) + 1):
            rounds.append(drill.round(number))
    except Failed as why:
        sys.exit(f"failover: round {len(rounds) + 1}: {why}\n{drill.told()}")
    finally:
        if rounds:
            drill.tell(rounds)
        drill.end()
        if "KEEP" not in os.environ:
            shutil.rmtree(folder, ignore_errors=True)


main()
