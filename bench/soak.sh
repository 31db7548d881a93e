#!/usr/bin/env bash
# A ring of five nodes, as processes over UDP on the loopback, for MINUTES. Every few seconds one of them is killed with -9 and
# restarted on the same life files, each third time with a torn life file (half of the slot that the next draw writes is
# overwritten). After each kill a route from every node must come back. At the end all links must be up, each entry of a node
# must be its neighbour's height, and the walk by next hops from every node must reach the destination. Prints the
# kills, the repairs, the slowest repair, and each node's memory soon after the start and at the end.
# usage: bench/soak.sh MINUTES [SEED]
set -eu
case ${1-} in -h | --help) sed -n '2,/^set -eu/{/^# /s/^# //p}' "$0"; exit 0 ;; esac
top=$(cd "$(dirname "$0")/.." && pwd)
minutes=${1:?minutes}
seed=${2:-$(od -An -N4 -tu4 /dev/urandom | tr -d ' ')}
"$top/tora" build >&2
exec python3 "$top/bench/soak.py" "$top" "$minutes" "$seed"
