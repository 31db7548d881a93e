#!/usr/bin/env bash
# Nanoseconds for one packet between two link ends in one thread: submitted, transmitted, delivered, acknowledged. Each line
# is the best of ROUNDS. `link-packet`: one packet at a time, a DATA frame and an ACK each. `link-window`: 32 packets in flight
# between ends of version 1, 33 frames for them. `link-batch`: 32 in flight between ends of version 2, three frames for them. The
# last two are also measured with frames that are encoded and decoded.
# The same run measures what ENet and TCP take between two processes over the loopback: ENet's batches (`enet`), and TCP with a
# write for each packet (`tcp`). These come from bench/baseline/link/link_bench.c, or from YARDSTICK.
# usage: [YARDSTICK=FOLDER] bench/link_core.sh [PACKETS] [ROUNDS]     needs ENet's header files (package libenet-dev)
set -eu
top=$(cd "$(dirname "$0")/.." && pwd)
packets=${1:-300000}
rounds=${2:-5}
work=$(mktemp -d)
trap 'rm -rf "$work"' EXIT
gcc -O2 -w -o "$work/link_bench" "${YARDSTICK:-$top/bench/baseline/link}/link_bench.c" -lenet
(cd "$top/crates/tora_bench" && rt run >/dev/null 2>&1)
for _ in $(seq "$rounds"); do
  "$top/crates/tora_bench/out/tora_bench" link "$packets" >>"$work/ours"
  for mode in enet tcp; do
    timeout 60 "$work/link_bench" "$mode" "$packets" >>"$work/theirs"
  done
done
python3 - "$work" <<'P'
import re
import sys

folder = sys.argv[1]
best = {}
for line in open(folder + "/ours"):
    name, value = line.split()[:2]
    best[name] = min(best.get(name, 1e18), float(value))
theirs = {}
for line in open(folder + "/theirs"):
    value = float(re.search(r"packets/s +([0-9.]+) us/packet", line).group(1)) * 1000
    mode = line.split()[0]
    theirs[mode] = min(theirs.get(mode, 1e18), value)
for name, value in best.items():
    beside = "".join(f"   {mode} {other:6.0f} ns: {value / other:5.2f} times" for mode, other in theirs.items())
    print(f"{name:18} {value:8.2f} ns{beside}")
P
