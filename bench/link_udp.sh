#!/usr/bin/env bash
# Packets of 32 bytes from one neighbour's thread to another over two UDP sockets of the loopback, at most 32 in flight, in
# batches of up to sixteen, beside yardsticks in C between two processes in the same run: ENet's batches (`enet`), TCP with a
# write for each packet (`tcp`), and frames of one packet of the sizes of version 1 (`sw`: one in flight; `w32`: 32 in flight).
# The same link with a key is `keyed`. Each line is the best of ROUNDS. The yardsticks are bench/baseline/link/link_bench.c, or
# the one in the folder YARDSTICK.
# usage: [YARDSTICK=FOLDER] bench/link_udp.sh [COUNT] [ROUNDS]     needs ENet's header files (package libenet-dev)
set -eu
top=$(cd "$(dirname "$0")/.." && pwd)
count=${1:-200000}
rounds=${2:-5}
work=$(mktemp -d)
trap 'rm -rf "$work"' EXIT
gcc -O2 -w -o "$work/link_bench" "${YARDSTICK:-$top/bench/baseline/link}/link_bench.c" -lenet
(cd "$top/crates/tora_bench" && rt run >/dev/null 2>&1)
for _ in $(seq "$rounds"); do
  "$top/crates/tora_bench/out/tora_bench" udp "$count" >>"$work/ours"
  "$top/crates/tora_bench/out/tora_bench" udp-keyed "$count" >>"$work/keyed"
  for mode in enet tcp w32; do
    timeout 60 "$work/link_bench" "$mode" "$count" >>"$work/$mode"
  done
  timeout 60 "$work/link_bench" sw "$((count / 4))" >>"$work/sw"
done
python3 - "$work" <<'P'
import re
import sys

folder = sys.argv[1]
ours = min(int(line.split()[1]) for line in open(folder + "/ours") if "ns/packet" in line)
print(f"run_neighbour, window 32  {ours:8d} ns a packet")
keyed = min(int(line.split()[1]) for line in open(folder + "/keyed") if "ns/packet" in line)
print(f"the same with a key       {keyed:8d} ns a packet   {keyed / ours:5.2f} times its time")
for mode in ("enet", "tcp", "w32", "sw"):
    rates = [float(m.group(1)) for m in re.finditer(r"packets/s +([0-9.]+) us/packet", open(f"{folder}/{mode}").read())]
    if rates:
        theirs = min(rates) * 1000
        print(f"yardstick {mode:4}            {theirs:8.0f} ns a packet   {ours / theirs:5.2f} times its time")
P
