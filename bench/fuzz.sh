#!/usr/bin/env bash
# Gives random and mutated inputs to the program for SECONDS: replay files (with packets in hexadecimal), simulation files
# and configurations; then, for as long again, random and mutated datagrams to a running node while it keeps its route.
# A run must end within 20 seconds, by no signal, with an exit status that the manual page names for its word. The seed is printed;
# with it the same inputs come in the same order. What fails is kept under KEPT, and the status is then 1.
# With --keys there are only datagrams, for SECONDS, to a node whose links have keys that the sender does not know: without tags,
# with tags of another key or of another datagram, with a tag cut, and recorded real datagrams of this life and of earlier
# ones, unchanged and changed. No route may be lost, whatever a datagram names. Halfway node 2 is killed and restarted.
# usage: bench/fuzz.sh [--keys] SECONDS [SEED] [KEPT]
set -eu
keys=
if [ "${1-}" = --keys ]; then keys=--keys && shift; fi
case ${1-} in -h | --help) sed -n '2,/^set -eu/{/^# /s/^# //p}' "$0"; exit 0 ;; esac
top=$(cd "$(dirname "$0")/.." && pwd)
seconds=${1:?seconds}
seed=${2:-$(od -An -N4 -tu4 /dev/urandom | tr -d ' ')}
kept=${3:-$PWD/fuzz-kept}
"$top/tora" build >&2
exec python3 "$top/bench/fuzz.py" "$top" "$seconds" "$seed" "$kept" $keys
