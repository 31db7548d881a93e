#!/usr/bin/env bash
# Checks the limits of worlds, and a world of 500 nodes, with the program in crates/tora/out: simulations and drives one under, at
# and one over each limit, without and with --large; each line of a simulation file in a world of 500 nodes; its trace, and what tora-study makes of it.
# usage: dev/check-large.sh [NODES]     with so many nodes instead of 500
# TORA_PROGRAM names another program. The packages of docs/how-to/install.md are needed.
set -eu
here=$(cd "$(dirname "$0")" && pwd)
case ${1:-} in -h | --help) sed -n '2,/^set -eu/{/^# /s/^# //p}' "$0"; exit 0 ;; esac
nodes=${1:-500}
program=${TORA_PROGRAM:-$here/../crates/tora/out/tora}
study=$here/../python/tora-study
[ -x "$program" ] || { echo "check-large: there is no program (./tora build, or TORA_PROGRAM)" >&2; exit 2; }
work=$(mktemp -d)
trap 'rm -rf "$work"' EXIT
cd "$work"
passed=0 failed=0

# Counts a check, which is a command.
holds() {
  local what=$1
  shift
  if "$@" >out 2>err; then
    passed=$((passed + 1))
  else
    failed=$((failed + 1))
    echo "check-large: $what: $*" >&2
    head -c 300 err >&2
  fi
}

# ---- limits

# A line of so many nodes; one node and so many neighbours; a table of so many destinations.
line() { echo 'dests 1'; seq 2 "$1" | awk '{ print "link", $1 - 1, $1 }'; }
star() { echo 'dests 1'; seq 2 $(($1 + 1)) | awk '{ print "link 1", $1 }'; }
table() { echo "dests $(seq -s , "$1")"; echo 'link 1 2'; }

# What is within a limit is simulated and driven: heights of so many nodes are printed, none of them by a fault.
within() {
  "$1" "$2" >file
  { cat file; echo 'heights 1'; } >simulated
  "$program" sim "${@:4}" simulated >printed
  "$program" drive "${@:4}" <simulated >answers
  [ "$(grep -c '^node [0-9]* ' printed)" = "$3" ] && [ "$(wc -l <printed)" = "$3" ] &&
    [ "$(grep '^node' answers | cmp - printed && echo same)" = same ] && [ "$(tail -n 1 answers)" = ok ] && ! grep -q fault answers
}

# What exceeds it is a fault of the line after the links, in both, with the cause; the drive continues.
beyond() {
  local status=0 at
  "$1" "$2" >file
  { cat file; echo 'heights 1'; } >simulated
  at=$(wc -l <simulated)
  "$program" sim -v "${@:4}" simulated >printed 2>causes || status=$?
  "$program" drive "${@:4}" <simulated >answers
  [ "$status" = 1 ] && [ "$(cat printed)" = "fault $at" ] && grep -qF -- "line $at: the links and destinations are refused: $3" causes &&
    [ "$(tail -n 1 answers)" = "fault $at the links and destinations are refused" ] && [ "$(grep -c '^ok$' answers)" = $((at - 1)) ]
}

standard='there are more than 64 nodes, 32 neighbours of a node or 64 destinations'
with_option="$standard; with \`--large\` there may be 1024 nodes and 255 neighbours of a node"
greatest='there are more than 1024 nodes, 255 neighbours of a node or 64 destinations'

# One under and at a limit of lines, stars or tables, and one over it: how many nodes each prints, by how many more than the limit counts.
limit() {
  local kind=$1 most=$2 cause=$3 at printed
  shift 3
  for at in $((most - 1)) "$most"; do
    case $kind in line) printed=$at ;; star) printed=$((at + 1)) ;; table) printed=2 ;; esac
    holds "$kind $at $*" within "$kind" "$at" "$printed" "$@"
  done
  holds "$kind $((most + 1)) $*" beyond "$kind" $((most + 1)) "$cause" "$@"
}

check_limits() {
  limit line 64 "$with_option"
  limit star 32 "$with_option"
  limit table 64 "$standard"
  limit line 1024 "$greatest" --large
  limit star 255 "$greatest" --large
  limit table 64 "$greatest" --large
  holds 'what was refused without --large' within line 65 65 --large
  holds 'what was refused without --large' within star 33 34 --large
}

# ---- many nodes

# After heights of D and `exact D`, the walks of all nodes, ascending, are those that the printed next hops make.
walks() {
  awk -v to="$1" '
    $1 == "node" { node[++count] = $2; hop[$2] = $5 }
    $1 == "walk" {
      at = node[++asked]; walk = at
      for (steps = 0; at != to && at != "-" && steps < count; steps++) { at = hop[at]; walk = walk "," at }
      if ($2 != (at == to ? walk : "-")) { print "walk of", node[asked], "is", $2; bad = 1 }
    }
    END { exit bad || !count || asked != count }' "$2"
}

# Each line of a simulation file, in the world of a scenario whose nodes with an even number are old.
each_line() {
  local first second
  read -r _ first second < <(grep -m 1 '^link ' moving.sim)
  grep -E '^(dests|link) ' moving.sim
  seq 2 2 "$nodes" | grep -Fxf <(awk '/^link / { print $2; print $3 }' moving.sim | sort -u) | sed 's/^/old /'
  grep '^need ' moving.sim | sort -u
  echo 'rounds 20'
  printf '%s\n' tick "open $first $second" "pull $first $second" "transmit $first $second" "pump $first $second" 'deliver 1' \
    'deliver 18446744073709551615' "turn $first"
  printf "arm $first %s\n" send-lost send-gone receive read write sync
  printf '%s\n' "restart $first -" "restart $second 0123456789abcdef0123456789abcdef" "part $first $second" 'rounds 5' \
    "mend $first $second" 'rounds 60' rest "sent $first $second 1 1" "taken $second $first 1 1" "heights $to" "exact $to"
  awk '/^link / { print $2; print $3 }' moving.sim | sort -un | sed "s/.*/walk & $to/"
}

check_lines() {
  each_line >each.sim
  holds 'each line of a simulation file' "$program" sim --large --trace each.trace each.sim
  "$program" sim --large each.sim >each.printed
  holds 'none of them is a fault' test -z "$(grep '^fault' each.printed)"
  holds 'the datagram that there is not is refused' grep -qx 'refused 3' each.printed
  holds 'rest is told' grep -qE '^rest (yes|no)$' each.printed
  holds 'packets are counted' test "$(grep -c '^count [0-9]*$' each.printed)" = 2
  holds 'exact entries are told' grep -qE '^exact [01]$' each.printed
  holds 'a walk arrives' grep -qE "^walk [0-9,]+,$to\$" each.printed
  holds 'walks are those of the next hops' walks "$to" each.printed
  holds 'the trace has its last record' grep -qE '^[0-9]+ end ' each.trace
}

# Two runs are the same, and a run with each node old tells what it prints.
check_traces() {
  "$program" sim --large moving.sim >plain
  "$program" sim --large --trace moving.trace moving.sim >printed
  holds 'a trace changes nothing that is printed' cmp plain printed
  holds 'the trace tells what is printed' "$here/oracle.py" agree moving.sim printed moving.trace
  awk '/^link / { print; node[$2]; node[$3]; next } NR > 1 && !told { for (n in node) print "old " n; told = 1 } { print }' moving.sim >old.sim
  "$program" sim --large --trace old.trace old.sim >old.printed
  holds 'the same with every node old' "$here/oracle.py" agree old.sim old.printed old.trace
}

check_package() {
  "$study" measure moving.json moving.trace --traffic 1 >row || true
  holds 'the row of the run, of all nodes' grep -q "^$nodes," row
  holds 'its loops' "$study" measure moving.json moving.trace --loops
  holds 'the breaks of routes' "$study" plot heights moving.json moving.trace "$to" --list
  holds 'a picture of heights' "$study" plot heights moving.json moving.trace "$to" --rounds 200 -o heights
  holds 'a page' "$study" page moving.json moving.trace -o moving.html
  grep -E '^(dests|link|old) ' moving.sim >world.sim
  holds 'a drive is the simulation of its record' "$here/oracle.py" drive --large --ticks 50 --loss 0.1 \
    --need "$(grep -m 1 '^need ' moving.sim | cut -d ' ' -f 2,3 | tr ' ' ,)" --keep driven --program "$program" world.sim
}

check_limits
"$study" make moving --large --nodes "$nodes" --seed 1 --rounds 300 --heights 100
to=$(sed -n '1s/^dests \([0-9]*\).*/\1/p' moving.sim)
check_traces
check_package
check_lines
echo "$passed passed, $failed failed"
[ "$failed" = 0 ]
