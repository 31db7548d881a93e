#!/usr/bin/env bash
# What calls of libtora take beside the same work without it, in one run, in turn, the best of ROUNDS. Like for like:
# - a datagram out of one router and into another as bytes, a HELLO (router-hello), and a query, the query that answers
#   it or an acknowledgement, with the steps of the cores (router-query), beside the same datagrams between two nodes of
#   `tora_bench node`: a core and a link end each, whose frames are encoded and decoded, without a router;
# - an update into a core by tora_core_packet, which decodes it (core-quiet), beside the same bytes into a core of
#   `tora_bench core-quiet-bytes`, which decodes them, too;
# - a line of tora_world with its answer, beside `tora drive` over two pipes: a grid of 10 x 10 nodes, as bench/drive.sh
#   has it.
# The aims are 1.2, 1.3 and 0.6 times. Beside less work, for comparison with earlier figures:
# - the datagrams beside an update of `tora_bench link-window-bytes`: 32 under way in frames of version 1, no core;
# - the update beside `tora_bench core-quiet`, which makes it as a value, and decodes nothing.
# usage: bench/library.sh [COUNT] [ROUNDS] [STEPS]     COUNT: datagrams and steps of a core; STEPS: of the drive
#   LIBRARY, PROGRAM, BENCH: the folder of libtora.a (out), the programs tora and tora_bench (those of crates/*/out)
set -eu
top=$(cd "$(dirname "$0")/.." && pwd)
count=${1:-300000}
rounds=${2:-5}
steps=${3:-300}
library=${LIBRARY:-$top/out}
program=${PROGRAM:-$top/crates/tora/out/tora}
bench=${BENCH:-$top/crates/tora_bench/out/tora_bench}
[ -e "$library/libtora.a" ] || { echo "library: the library is not built (./tora build --lib)" >&2; exit 2; }
[ -n "${BENCH:-}" ] || (cd "$top/crates/tora_bench" && rt run >/dev/null 2>&1)
work=$(mktemp -d)
trap 'rm -rf "$work"' EXIT
strict='-std=c99 -O2 -Wall -Wextra -pedantic'
"${CC:-cc}" $strict -I"$top/include" "$top/bench/library.c" "$library/libtora.a" -o "$work/library"

{
  echo "dests 1,100"
  for node in $(seq 1 100); do
    [ $((node % 10)) = 0 ] || echo "link $node $((node + 1))"
    [ "$node" -gt 90 ] || echo "link $node $((node + 10))"
  done
} >"$work/grid.sim"
asked=(--large --ticks "$steps" --need 1,100 --need 100,1)
"$top/dev/oracle.py" drive "${asked[@]}" --keep "$work" --program "$program" "$work/grid.sim"

for _ in $(seq "$rounds"); do
  "$work/library" router "$count" >>"$work/times"
  "$bench" node "$count" >>"$work/times"
  "$bench" link-window-bytes "$count" >>"$work/times"
  "$work/library" core "$count" >>"$work/times"
  "$bench" core-quiet "$count" | sed 's/^core-quiet/bench-quiet/' >>"$work/times"
  "$work/library" world "$work/driven.txt" >>"$work/times" 2>/dev/null
  "$work/library" pipe "$work/driven.txt" "$program" >>"$work/times"
done
python3 - "$work/times" <<'P'
import sys

best = {}
for line in open(sys.argv[1]):
    name, value = line.split()[:2]
    best[name] = min(best.get(name, 1e18), float(value))
PAIRS = [
    ("router-hello", "node-hello", ", aim 1.2"), ("router-query", "node-query", ", aim 1.2"),
    ("core-quiet", "bench-quiet-bytes", ", aim 1.3"), ("world-line", "drive-line", ", aim 0.6"),
    ("router-hello", "link-window-bytes", ""), ("router-query", "link-window-bytes", ""),
    ("core-quiet", "bench-quiet", ""),
]
for ours, other, aim in PAIRS:
    ratio = best[ours] / best[other]
    print(f"{ours:13} {best[ours]:9.2f} ns   {other:18} {best[other]:9.2f} ns: {ratio:.2f} times{aim}")
P
