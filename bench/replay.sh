#!/usr/bin/env bash
# Lines per second and peak memory of `tora replay`, beside an unverified baseline in the same run.
# usage: [BASE=FOLDER] bench/replay.sh [LINES] [ROUNDS]     BASE: sources of the baseline instead of bench/baseline
set -eu
top=$(cd "$(dirname "$0")/.." && pwd)
lines=${1:-1000000}
rounds=${2:-5}
. "$top/bench/baseline.sh"
"$top/tora" build >&2
"$bin" gen-mix "$lines" 1 >"$work/mix.replay"
echo "a mixed file of $lines lines, $(stat -c %s "$work/mix.replay") bytes"
python3 "$top/bench/measure.py" "$rounds" "$work/mix.replay" "$work/a" "$work/b" -- "$top/crates/tora/out/tora" replay -- "$bin" replay
"$bin" gen-mix $((lines / 10)) 2 >"$work/small.replay"
echo "memory at a tenth of the lines, which has to be the same"
python3 "$top/bench/measure.py" 2 "$work/small.replay" "$work/a" "$work/b" -- "$top/crates/tora/out/tora" replay -- "$bin" replay
{
  echo 'node 3 links 2,4 dests 4'
  echo '1 up 2'
  echo '1 up 4'
  echo '2 from 2 0101000000000004'
  yes '3 from 2 0102000000000004000000000000000000000000000000000000000200000002' | head -n "$lines"
} >"$work/one.replay"
echo "one destination: an update that changes nothing, $lines times"
python3 "$top/bench/measure.py" "$rounds" "$work/one.replay" "$work/a" "$work/b" -- "$top/crates/tora/out/tora" replay -- "$bin" replay
