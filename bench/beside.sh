#!/usr/bin/env bash
# Times WHAT (core or codec) and the baseline's `bench` in turn, and prints the best of each.
# usage: [BASE=FOLDER] bench/beside.sh WHAT [STEPS] [ROUNDS]     BASE: sources of the baseline instead of bench/baseline
set -eu
top=$(cd "$(dirname "$0")/.." && pwd)
what=$1
steps=${2:-300000}
rounds=${3:-5}
. "$top/bench/baseline.sh"
(cd "$top/crates/tora_bench" && rt run >/dev/null 2>&1)
for _ in $(seq "$rounds"); do
  "$top/crates/tora_bench/out/tora_bench" "$what" "$steps" >>"$work/ours"
  "$bin" bench "$steps" >>"$work/theirs"
done
python3 - "$work/ours" "$work/theirs" "$what" <<'P'
import re
import sys

ours, theirs, what = sys.argv[1:]
best = {}
for line in open(ours):
    name, value = line.split()[:2]
    best[name] = min(best.get(name, 1e18), float(value))
for line in open(theirs):
    if line.startswith(what):
        name = "base " + line[:34].strip()
        value = float(re.search(r"([0-9.]+) ns/op", line).group(1))
        best[name] = min(best.get(name, 1e18), value)
pairs = {
    "core-mixed": "base core: mixed inputs (gen-mix)",
    "core-quiet": "base core: quiet UPD (no send)",
    "core-reacting": "base core: reacting UPD (case 2, 1 send)",
    "core-links": "base core: LinkDown+LinkUp, 16 dests",
    "codec-packet": "base codec: UPD encode+decode",
    "codec-frame": "base codec: UPD encode+decode",
}
for name, value in best.items():
    if name in pairs:
        other = next((v for n, v in best.items() if n.startswith("base") and pairs[name].startswith(n)), None)
        ratio = f"  {value / other:5.2f} times" if other else ""
        print(f"{name:18} {value:8.2f} ns   baseline {other or 0:8.2f} ns{ratio}")
    elif not name.startswith("base "):
        print(f"{name:18} {value:8.2f} ns")
P
