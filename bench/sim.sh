#!/usr/bin/env bash
# Time and peak memory of `tora sim`, beside an unverified baseline in the same run: a line of 64 nodes, a grid of 8 x 8, a star
# of 9, and the grid with 16 destinations. Links are parted and mended; the lines after the links are repeated REPEATS times. The
# last file is the grid for 2,000 rounds in which only HELLOs are sent, also REPEATS times.
# Each file runs twice: with a line `old N` for every node, where the outputs must be the same, and without. The baseline
# knows only version 1 of frames, and batches deliver packets in another order, so heights may differ without these lines.
# Large worlds follow, once each, as `tora sim --large` runs them: in pages of 2 MB if the system provides them (./tora and the
# script that ./tora install puts into bin ask for them). The baseline has its limits raised in a copy (bench/raised.py), and
# pages of 4 kB. The worlds are a grid of 32 x 32 with one need across it; 500 moving nodes for 1,200 rounds, which must take at most
# the baseline's time; and 1,024 nodes with 8,000 links and 16 destinations. The first must stay under 150 MB, the last under 1 GB.
# Then the 500 moving nodes run again in pages of 4 kB for both programs, with the same aim.
# Then the time of a datagram at 64 and at 1,024 nodes, whose ratio must be at most 1.5: in a grid without parted links, for 2,000
# and for 16,000 rounds of the larger one, and with moving nodes; and the same for each further datagram, without the time that
# it takes to make the world. Both run with --large.
# usage: [BASE=FOLDER] bench/sim.sh [--large] [REPEATS] [ROUNDS]     BASE: sources of the baseline instead of bench/baseline
#   --large   only large worlds
set -eu
top=$(cd "$(dirname "$0")/.." && pwd)
alone=''
if [ "${1:-}" = --large ]; then alone=1; shift; fi
repeats=${1:-40}
rounds=${2:-5}
. "$top/bench/baseline.sh"
"$top/tora" build >&2
program=$top/crates/tora/out/tora
large=()
# What stands before the program's words: a large world lies in pages of 2 MB where the system gives them.
way=()
pages=GLIBC_TUNABLES=glibc.malloc.hugetlb=1

# A file whose lines behind the links come so many times.
repeated() {
  grep -E '^(dests|link) ' "$1"
  for _ in $(seq "$repeats"); do
    grep -Ev '^(dests|link) ' "$1"
  done
}

# The same with a line `old N` for every node.
all_old() {
  awk '/^link / { print; node[$2]; node[$3]; next }
    NR > 1 && !told { for (n in node) print "old " n; told = 1 }
    { print }' "$1"
}

# A file of the baseline, as often as it is repeated, in both programs, by its name.
compared() {
  repeated "$work/once.sim" >"$work/case.sim"
  all_old "$work/case.sim" >"$work/old.sim"
  for nodes in old case; do
    echo "$1: $(wc -l <"$work/case.sim") lines, $repeats times what stands behind the links$([ "$nodes" = case ] || echo ', every node old')"
    python3 "$top/bench/measure.py" "$rounds" /dev/null "$work/a" "$work/b" -- ${way[@]+"${way[@]}"} "$program" sim ${large[@]+"${large[@]}"} "$work/$nodes.sim" -- "$bin" sim "$work/case.sim"
  done
}

# The baseline with its limits raised to so many nodes with so many neighbours, in a copy of its own.
raised() {
  local copy=$work/raised-$2
  if [ ! -e "$copy" ]; then
    cp -r "$base" "$copy"
    chmod -R u+w "$copy"
    python3 "$top/bench/raised.py" "$copy/src" "$1" "$2"
    (cd "$copy" && cargo build --release --offline >/dev/null 2>&1) || { echo "sim: the raised baseline does not build: $copy" >&2; exit 1; }
  fi
  bin=$copy/target/release/base
}

# A grid of so many nodes along each side, and one need across it.
grid() {
  local side=$1 last=$(($1 * $1))
  echo "dests $last"
  links "$side" '0 1,1 0'
  echo "need 1 $last"
}

# The links of a grid of so many nodes along each side, by the steps down and right that they make.
links() {
  awk -v side="$1" -v steps="$2" 'BEGIN {
    count = split(steps, step, ",")
    for (row = 0; row < side; row++) for (column = 0; column < side; column++) for (at = 1; at <= count; at++) {
      split(step[at], by, " ")
      down = row + by[1]; right = column + by[2]
      if (down < side && right >= 0 && right < side) print "link", row * side + column + 1, down * side + right + 1
    }
  }'
}

# Nodes of the scenario with seed 1, for 1,200 rounds, with the heights at their end; each with 32 neighbours at most, as many as the
# baseline's limit is raised to.
moving() {
  "$top/python/tora-study" make "$work/moving-$1" --large --limit 32 --nodes "$1" --seed 1 --rounds 1200 --heights 1200
}

# Small worlds, as often as they are repeated.
small_worlds() {
  for case in 'line 64' 'grid 8' 'star 9' 'grid 8 16'; do
    # shellcheck disable=SC2086
    "$bin" gen-sim $case >"$work/once.sim"
    compared "$case"
  done
  "$bin" gen-sim grid 8 | grep -E '^(dests|link) ' >"$work/once.sim"
  echo 'rounds 2000' >>"$work/once.sim"
  compared 'grid 8, HELLOs alone'
}

# Large worlds, once each, beside the baseline with limits of the file's size.
large_worlds() {
  local repeats=1 large=(--large)
  way=(env "$pages")
  raised 1024 8
  { grid 32; echo 'rounds 100'; echo 'heights 1024'; } >"$work/once.sim"
  compared 'grid 32, one need across it, 100 rounds'
  raised 1024 32
  moving 500
  cp "$work/moving-500.sim" "$work/once.sim"
  compared '500 moving nodes, 1,200 rounds'
  way=()
  compared '500 moving nodes, 1,200 rounds, in pages of 4 kB'
  way=(env "$pages")
  {
    echo "dests $(seq -s , 1009 1024)"
    links 32 '0 1,1 0,1 1,1 -1,0 2,2 0,1 2,2 1,1 -2' | awk 'NR % 14' | head -n 8000
    for it in $(seq 1009 1024); do echo "need $((it - 1008)) $it"; done
    echo 'rounds 100'
    echo 'heights 1024'
  } >"$work/once.sim"
  compared '1,024 nodes, 8,000 links, 16 destinations, one need of each, 100 rounds'
}

# Datagrams at 64 and at 1,024 nodes: in grids as many of both, with moving nodes in as many rounds.
datagrams() {
  export "${pages?}"
  { grid 8; for _ in 1 2 3 4; do echo 'rounds 8000'; done; } >"$work/grid-of-64"
  { grid 32; echo 'rounds 2000'; } >"$work/grid-of-1024"
  python3 "$top/bench/per_datagram.py" "$rounds" "$program" "$work/grid-of-64" "$work/grid-of-1024"
  echo 'eight times as many rounds of the grids, so that the making of the world is less of the time'
  { grid 8; for _ in $(seq 32); do echo 'rounds 8000'; done; } >"$work/long-grid-of-64"
  { grid 32; for _ in $(seq 8); do echo 'rounds 2000'; done; } >"$work/long-grid-of-1024"
  python3 "$top/bench/per_datagram.py" "$rounds" "$program" "$work/long-grid-of-64" "$work/long-grid-of-1024"
  moving 64
  moving 1024
  python3 "$top/bench/per_datagram.py" "$rounds" "$program" "$work/moving-64.sim" "$work/moving-1024.sim"
  echo 'each datagram more, without the time in which the world is made: twice as many rounds of the grids by as many, the moving nodes by their first 600 rounds'
  { cat "$work/grid-of-64"; grep '^rounds ' "$work/grid-of-64"; } >"$work/grid-of-64-on"
  { cat "$work/grid-of-1024"; grep '^rounds ' "$work/grid-of-1024"; } >"$work/grid-of-1024-on"
  python3 "$top/bench/per_datagram.py" --more "$rounds" "$program" "$work/grid-of-64" "$work/grid-of-64-on" "$work/grid-of-1024" "$work/grid-of-1024-on"
  local nodes
  for nodes in 64 1024; do
    awk '/^rounds / { if (sum + $2 > 600) exit; sum += $2 } { print }' "$work/moving-$nodes.sim" >"$work/half-of-$nodes.sim"
  done
  python3 "$top/bench/per_datagram.py" --more "$rounds" "$program" "$work/half-of-64.sim" "$work/moving-64.sim" "$work/half-of-1024.sim" "$work/moving-1024.sim"
}

[ -n "$alone" ] || small_worlds
large_worlds
datagrams
