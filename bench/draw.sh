#!/usr/bin/env bash
# The system calls of `tora node` around its life files, by strace: node 3 of examples/two-nodes is started twice on the same
# life file, alone, on the loopback. Each time the file must be locked, and it and its folder synced, before a frame is sent; and
# no frame may carry a life number above the bound that a `pwrite64` has written and an `fsync` has then put on the disk. Prints a
# line for each start. Status 1 if a call is missing or comes too late. Without strace it says so, and the status is 0.
# usage: bench/draw.sh
set -eu
case ${1-} in -h | --help) sed -n '2,/^set -eu/{/^# /s/^# //p}' "$0"; exit 0 ;; esac
top=$(cd "$(dirname "$0")/.." && pwd)
if ! command -v strace >/dev/null; then
  echo "left out: there is no strace"
  exit 0
fi
"$top/tora" --version >&2
exec python3 "$top/bench/draw.py" "$top"
