#!/usr/bin/env bash
# Tries the wrong bodies that the merge gate leaves out, crates/NAME/edits/*.edit: the prover must refuse each of them. They have
# the form of the edits in crates/NAME/must-fail/, which `rt ci` tries.
# usage: dev/edits.sh [-j NUMBER] [CRATE ..]     without a CRATE, all crates that have such edits
#   -j NUMBER   how many crates at a time, 1 to 999, each with up to 4 GB; the default is 1
# Each crate is tried on a copy, which is removed at the end, so changes that are not committed are tried, too. The copy takes the
# libraries of the crates below from their out/ (`rt all check` makes them), and proves those that are missing or old. The
# first edit of a crate costs a proof of it, each further one 20 to 90 seconds.
# The last line is 'N passed, M failed'; the status is 1 if one failed. An edit that cannot be applied has failed.
set -u
top=$(cd "$(dirname "$0")/.." && pwd)
many=1
case ${1-} in
  -h | --help) sed -n '2,/^set -u/s/^# //p' "$0"; exit 0 ;;
  -j) many=${2-}; shift; [ $# = 0 ] || shift ;;
  -*) echo "edits.sh: no option $1 (--help)" >&2; exit 2 ;;
esac
[[ $many =~ ^[1-9][0-9]{0,2}$ ]] || { echo "edits.sh: -j takes a number from 1 to 999, not '$many'" >&2; exit 2; }
command -v rt >/dev/null || { echo "edits.sh: there is no command rt" >&2; exit 2; }
cd "$top/crates" || exit 2
[ $# -gt 0 ] || set -- $(for folder in */edits; do [ -d "$folder" ] && echo "${folder%/edits}"; done)
for crate in "$@"; do
  [ -d "$crate/edits" ] || { echo "edits.sh: no crate with a folder edits is named '$crate'" >&2; exit 2; }
done
work=$(mktemp -d)
trap 'kill $(jobs -p) 2>/dev/null; wait; rm -rf "$work"' EXIT
trap 'exit 130' INT TERM HUP

# The crates of the repository below one, by crates.txt.
below() {
  awk -v top="$1" '
    { sub(/#.*/, "") }
    /:/ { split($0, half, ":"); split(half[1], head, " "); names[head[1]] = half[2] }
    END {
      wanted[top] = 1
      do {
        more = 0
        for (name in wanted) {
          n = split(names[name], uses, " ")
          for (i = 1; i <= n; i++) if (uses[i] in names && !(uses[i] in wanted)) { wanted[uses[i]] = 1; more = 1 }
        }
      } while (more)
      for (name in wanted) if (name != top) print name
    }' "$top/crates.txt"
}

# A copy of the repository in which the edits of one crate stand as its must-fail edits, and no other crate has any.
copy() {
  local crate=$1 room=$work/$1/copy name part
  mkdir -p "$room/crates" "$work/$1/tmp"
  cp "$top/crates.txt" "$room/"
  [ ! -e "$top/HANDLES" ] || cp "$top/HANDLES" "$room/"
  for name in *; do
    [ -d "$name/src" ] || continue
    mkdir "$room/crates/$name"
    for part in src specs proofs; do
      [ ! -d "$name/$part" ] || cp -R "$name/$part" "$room/crates/$name/"
    done
  done
  for name in $(below "$crate"); do
    [ -d "$name/out/rlib" ] || continue
    mkdir "$room/crates/$name/out"
    cp -a "$name/out/rlib" "$room/crates/$name/out/"
  done
  cp -R "$crate/edits" "$room/crates/$crate/must-fail"
}

passed=0 failed=0
# Takes in what came of one crate: what was not refused has failed, whatever the cause.
take() {
  local crate=$1 log=$work/$1/log refused all
  grep "^rt: " "$log"
  refused=$(grep -c "^rt: must-fail $crate/[^:]*: refused, as it must be" "$log")
  all=$(find "$crate/edits" -type f ! -name '*.md' | wc -l)
  [ "$refused" -eq "$all" ] || grep -q "^rt: must-fail " "$log" || tail -n 5 "$log"
  [ "$refused" -eq "$all" ] || echo "edits.sh: $crate: $((all - refused)) of $all edits were not refused"
  passed=$((passed + refused)) failed=$((failed + all - refused))
  rm -rf "${work:?}/$crate"
}

running=() crates=()
# Waits for the crate that was begun first.
first() {
  wait "${running[0]}"
  take "${crates[0]}"
  running=("${running[@]:1}") crates=("${crates[@]:1}")
}

for crate in "$@"; do
  [ "${#running[@]}" -lt "$many" ] || first
  copy "$crate"
  (cd "$work/$crate/copy" && TMPDIR=$work/$crate/tmp exec rt must-fail "$crate") >"$work/$crate/log" 2>&1 </dev/null &
  running+=($!) crates+=("$crate")
done
while [ "${#running[@]}" -gt 0 ]; do first; done
echo "$passed passed, $failed failed"
[ "$failed" -eq 0 ]
