#!/usr/bin/env bash
# Nanoseconds for a step of the core on four mixes of inputs, beside an unverified baseline in the same run; three of the mixes
# with the largest table, which the baseline does not have; and the memory of a core with the smallest table, with that of the
# mixes, and with the largest one.
# The program crate `tora_bench` makes the inputs; the baseline makes inputs of the same kinds with its own generator.
# usage: [BASE=FOLDER] bench/core.sh [STEPS] [ROUNDS]     BASE: sources of the baseline instead of bench/baseline
set -eu
here=$(cd "$(dirname "$0")" && pwd)
"$here/beside.sh" core "$@"
python3 - "$here/../crates/tora_bench/out/tora_bench" <<'P'
import os
import subprocess
import sys


def resident(word, count):
    child = subprocess.Popen([sys.argv[1], word, str(count)], stdout=subprocess.DEVNULL)
    return os.wait4(child.pid, 0)[2].ru_maxrss * 1024


sizes = [("least", 20000, "1 neighbour and 1 destination"), ("small", 4000, "8 and 16"), ("large", 2000, "32 and 64")]
for name, count, table in sizes:
    word = f"hold-{name}"
    bytes_each = (resident(word, 2 * count) - resident(word, count)) / count
    print(f"memory of a core   {bytes_each:8.0f} bytes, {table}")
P
