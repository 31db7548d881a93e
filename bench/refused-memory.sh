#!/usr/bin/env bash
# Refuses memory to every test of every crate: the Nth request, N from 1 on until none is refused any more, each in a run
# of its own. A test named `want_of_memory..` must pass in every run. Any other test may fail for want of memory, but none
# may crash or hang. (Tests of lanes and of neighbours' threads, in the modules `lanes` and `neighbours`, may wait for a thread
# that was not started. They are ended after 20 seconds and counted; any other test has 60 seconds.)
# usage: bench/refused-memory.sh [-m MOST] [CRATE ..]     without a CRATE, all crates; MOST is 2000 by default
# After the MOSTth request, N goes on in steps of a twentieth. If the crates' tests are not built, `rt test` builds them, which
# proves them. It needs a C compiler.
set -u
top=$(cd "$(dirname "$0")/.." && pwd)
most=2000
case ${1-} in
  -h | --help) sed -n '2,/^set -u/s/^# //p' "$0"; exit 0 ;;
  -m) most=${2:?a number}; shift 2 ;;
esac
[[ $most =~ ^[1-9][0-9]*$ ]] || { echo "refused-memory.sh: -m takes a number from 1 on, not '$most'" >&2; exit 2; }
work=$(mktemp -d)
trap 'rm -rf "$work"' EXIT
cc -O1 -shared -fPIC -o "$work/refuse.so" "$top/bench/refuse.c" || exit 2

# One run of a test with the Nth call refused: 0 where it passes, 101 where it fails, else its status. A test that stops at a
# line of its own, since what it expected did not hold, is aborted.
run() {
  local status=0
  rm -f "$work/came"
  (cd "$work" && timeout "$limit" env LD_PRELOAD="$work/refuse.so" REFUSE_AT="$3" REFUSE_LOG="$work/came" "$1" "$2" >"$work/log" 2>&1) || status=$?
  if [ "$status" -eq 134 ] && grep -q '^test stopped at ' "$work/log"; then status=101; fi
  return "$status"
}

# Each call of one test refused in turn; 1 where a run is wrong.
sweep() {
  local tests=$1 name=$2 n=1 runs=0 failed=0 status
  while :; do
    run "$tests" "$name" "$n" 2>/dev/null
    status=$?
    if [ "$status" -eq 124 ] && [ -n "$threads" ]; then
      waited=$((waited + 1))
      status=101
    fi
    if [ "$status" -ne 0 ] && [ "$status" -ne 101 ] || { [ "$status" -ne 0 ] && [[ $name == *want_of_memory* ]]; }; then
      tail -n 5 "$work/log"
      echo "$name: status $status where call $n is refused"
      return 1
    fi
    [ -e "$work/came" ] || break
    runs=$((runs + 1))
    [ "$status" -eq 0 ] || failed=$((failed + 1))
    if [ "$n" -lt "$most" ]; then n=$((n + 1)); else n=$((n + n / 20)); fi
  done
  calls=$((calls + n - 1)) all_runs=$((all_runs + runs)) all_failed=$((all_failed + failed))
  [ "$n" -le "$most" ] || thinned="$thinned $name"
}

cd "$top/crates" || exit 2
[ $# -gt 0 ] || set -- $(for tests in */src/tests.rt; do echo "${tests%%/*}"; done)
wrong=0
for crate in "$@"; do
  [ -e "$crate/src/tests.rt" ] || { echo "refused-memory.sh: no crate with tests is named $crate" >&2; exit 2; }
  tests=$top/crates/$crate/out/${crate}_tests
  [ -x "$tests" ] || (cd "$crate" && rt test) >"$work/built" 2>&1 || { tail -n 5 "$work/built"; exit 2; }
  calls=0 all_runs=0 all_failed=0 thinned= count=0 waited=0
  for name in $("$tests" --list | sed -n 's/: test$//p'); do
    count=$((count + 1))
    case $name in
      tests::lanes::* | tests::neighbours::*) threads=1 limit=20 ;;
      *) threads= limit=60 ;;
    esac
    sweep "$tests" "$name" || wrong=$((wrong + 1))
  done
  echo "$crate: $count tests, which call for memory $calls times; $all_runs runs with one call refused, of which $all_failed ended a test$([ "$waited" = 0 ] || echo " ($waited waited for a thread)")${thinned:+; in steps:$thinned}"
done
[ "$wrong" -eq 0 ] && echo "no run was wrong" || { echo "$wrong tests were wrong"; exit 1; }
