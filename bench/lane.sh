#!/usr/bin/env bash
# Items from three threads into the lane to the core, beside Rust's std::sync::mpsc::sync_channel, and cargoes from one
# thread to another through the lane to a neighbour, beside a plain ring of atomics, in the same run. The baseline is the Cargo
# crate `lane_base` beside this script, which has no dependencies.
# usage: bench/lane.sh [COUNT] [ROUNDS]
set -eu
top=$(cd "$(dirname "$0")/.." && pwd)
count=${1:-200000}
rounds=${2:-5}
work=$(mktemp -d)
trap 'rm -rf "$work"' EXIT
cp -r "$top/bench/lane_base" "$work/base"
(cd "$work/base" && cargo build --release --offline >/dev/null 2>&1)
(cd "$top/crates/tora_bench" && rt run >/dev/null 2>&1)
for _ in $(seq "$rounds"); do
  "$top/crates/tora_bench/out/tora_bench" lanes "$count" >>"$work/ours"
  "$work/base/target/release/lane_base" "$count" >>"$work/theirs"
done
python3 - "$work/ours" "$work/theirs" <<'P'
import sys

best = [{}, {}]
for of, name in enumerate(sys.argv[1:]):
    for line in open(name):
        words = line.split()
        best[of][words[0]] = min(best[of].get(words[0], 1e18), float(words[1]))
for name, ours in best[0].items():
    theirs = best[1][name]
    print(f"{name:10} {ours:8.2f} ns, {1e3 / ours:7.2f} million/s   baseline {theirs:8.2f} ns, {1e3 / theirs:7.2f} million/s   {ours / theirs:5.2f} times")
P
