#!/usr/bin/env bash
# Time of `tora drive` beside `tora sim` of the same events: a grid of 10 x 10 nodes, 1,000 steps, each datagram delivered. The
# lines are recorded from a run over a pipe (dev/oracle.py drive), which is timed too; then both programs read their lines from a file.
# usage: bench/drive.sh [STEPS] [RUNS] [PROGRAM] [SIDE]     SIDE: nodes along each side, up to 32; the default is 10
set -eu
top=$(cd "$(dirname "$0")/.." && pwd)
steps=${1:-1000}
runs=${2:-5}
program=${3:-$top/crates/tora/out/tora}
side=${4:-10}
last=$((side * side))
work=$(mktemp -d)
trap 'rm -rf "$work"' EXIT

{
  echo "dests 1,$last"
  for row in $(seq 0 $((side - 1))); do
    for column in $(seq 1 "$side"); do
      node=$((row * side + column))
      [ "$column" = "$side" ] || echo "link $node $((node + 1))"
      [ "$row" = $((side - 1)) ] || echo "link $node $((node + side))"
    done
  done
} >"$work/grid.sim"

# The least of so many times of a command, in milliseconds.
least() {
  local best=999999999 start now
  for _ in $(seq "$runs"); do
    start=$(date +%s%N)
    "$@" >/dev/null
    now=$((($(date +%s%N) - start) / 1000000))
    if [ "$now" -lt "$best" ]; then best=$now; fi
  done
  echo "$best"
}

drive() { "$program" drive --large <"$work/driven.txt"; }

start=$(date +%s%N)
"$top/dev/oracle.py" drive --large --ticks "$steps" --need "1,$last" --need "$last,1" --keep "$work" --program "$program" "$work/grid.sim"
echo "over a pipe, with its driver: $((($(date +%s%N) - start) / 1000000)) ms, $(wc -l <"$work/driven.txt") lines"
sim=$(least "$program" sim --large "$work/driven.sim")
driven=$(least drive)
echo "tora sim $sim ms, tora drive $driven ms: $((sim * 100 / driven)) % of its rate"
