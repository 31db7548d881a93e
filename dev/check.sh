#!/usr/bin/env bash
# Checks what the gate does not check: the package of studies by its own tests (python/tests), the laws in random networks, the
# dissector, the completion, what ./tora install installs, what the scripts of dev/ refuse, that the version is the same everywhere,
# that limits have names, and that the manual pages and the help have the lines of docs/formats.md. If the program is built, nodes of
# it are tried, too: their lock, log and keys, and what they report to programs.
# usage: dev/check.sh [--store]
#   --store   write the results to dev/stored and python/tests/stored/frames.pcap instead of comparing
# The package needs /usr/bin/python3 with the Debian packages of docs/how-to/install.md, and python3-pytest. The program is that of
# TORA, else crates/tora/out/tora, else out/tora_unproved, which ./tora leaves; without a program, what needs one is left out.
# The dissector dev/tora.lua is tried on a stored capture if there is a tshark (package tshark), and the module for ns-3 (ns3/check)
# if it is built (ns3/build).
set -eu
here=$(cd "$(dirname "$0")" && pwd)
store=
case ${1:-} in
  '') ;;
  --store) store=1 ;;
  -h | --help) sed -n '2,/^set -eu/{/^# /s/^# //p}' "$0"; exit 0 ;;
  *) echo "check: no option $1 (--help)" >&2; exit 2 ;;
esac
command -v python3 >/dev/null || { echo "check: python3 is missing (package python3)" >&2; exit 2; }
cd "$here/stored"
work=$(mktemp -d)
trap 'rm -rf "$work"' EXIT
passed=0 failed=0

# Compares a file with the stored one of a name.
same() {
  if [ -n "$store" ]; then cp "$2" "$1"; fi
  if cmp -s "$1" "$2"; then
    passed=$((passed + 1))
  else
    failed=$((failed + 1))
    echo "check: $1 is not what comes out:" >&2
    diff "$1" "$2" | head -10 >&2 || true
  fi
}

# Compares two files.
agrees() {
  if cmp -s "$1" "$2"; then
    passed=$((passed + 1))
  else
    failed=$((failed + 1))
    echo "check: $3 is not what comes out:" >&2
    diff "$1" "$2" | head -10 >&2 || true
  fi
}

# A command that has to end well.
holds() {
  local what=$1
  shift
  if "$@" >"$work/out" 2>"$work/err"; then
    passed=$((passed + 1))
  else
    failed=$((failed + 1))
    echo "check: $what: $*" >&2
    head -3 "$work/err" >&2
  fi
}

# A command that has to be refused with this status and these words.
refuses() {
  local wanted=$1 words=$2 status=0
  shift 2
  "$@" >"$work/out" 2>"$work/err" || status=$?
  if [ "$status" = "$wanted" ] && grep -qF -- "$words" "$work/err"; then
    passed=$((passed + 1))
  else
    failed=$((failed + 1))
    echo "check: status $status, not $wanted with \"$words\": $*" >&2
    head -3 "$work/err" >&2
  fi
}

# The tests of the package, and the laws of worlds at rest in twelve random networks.
check_package() {
  local program
  if ! /usr/bin/python3 -c 'import pytest, matplotlib, networkx, jsonschema, pandas, scipy' 2>/dev/null; then
    echo "check: a package of python/ is missing (docs/how-to/install.md, and python3-pytest); its tests are left out"
    return
  fi
  holds 'the tests of python/' env -C "$here/../python" /usr/bin/python3 -m pytest -q -p no:cacheprovider
  tail -n 1 "$work/out"
  for program in "${TORA:-}" "$here/../crates/tora/out/tora" "$here/../out/tora_unproved"; do
    if [ -n "$program" ] && [ -x "$program" ]; then
      holds 'the laws of worlds at rest in random networks' "$here/oracle.py" rest --networks 12 --program "$program"
      return
    fi
  done
}

# What the scripts for work on the repository refuse.
check_usage() {
  local it
  for it in '-j 1000' '-j'; do refuses 2 'from 1 to 999' "$here/edits.sh" $it; done
  refuses 2 'from 1 to 1024' "$here/test.py" --jobs 9999
  refuses 2 'from 1 to 1024' "$here/test.py" --jobs x
  refuses 2 'from 1 to 1024' "$here/build.py" --jobs 0
  refuses 2 'is not N,D' "$here/oracle.py" drive --need 1 FILE
  refuses 2 'required' "$here/oracle.py" agree FILE
}

# The library for C, where it is built.
check_library() {
  if [ ! -e "$here/../out/libtora.so.0" ]; then
    echo "check: the library for C is not built (./tora build --lib); dev/check-lib.sh is left out"
    return
  fi
  holds 'the library for C' "$here/check-lib.sh"
  tail -n 1 "$work/out"
}

# The dissector, on the capture of python/tests/stored/frames.list: of a port that is decoded as tora, and by the bytes alone.
check_dissector() {
  local frames=../../python/tests/stored/frames
  local tried=(tshark -X lua_script:"$here/tora.lua" -r "$frames.pcap" -T fields -e tora.summary)
  "$here/oracle.py" capture "$frames.list" "$work/frames.pcap" >/dev/null
  same "$frames.pcap" "$work/frames.pcap"
  if ! command -v tshark >/dev/null; then
    echo "check: no tshark (package tshark); dev/tora.lua is not tried"
    return
  fi
  sed -n 's/^[^#|]*| //p' "$frames.list" >"$work/wanted"
  "${tried[@]}" -d udp.port==40021,tora >"$work/found" 2>"$work/err" || cat "$work/err" >&2
  agrees "$work/wanted" "$work/found" "what dev/tora.lua says of frames.pcap"
  sed -i '/no frame/d' "$work/wanted"
  "${tried[@]}" 2>"$work/err" | sed '/^$/d' >"$work/found"
  agrees "$work/wanted" "$work/found" "what dev/tora.lua says of frames.pcap by its bytes"
}

# ./tora install and uninstall, in a copy with a stand-in for the program.
check_install() {
  local copy=$work/copy root=$work/root tora=$work/copy/tora program=$work/copy/crates/tora/out/tora
  mkdir -p "$copy/crates/tora/src" "$copy/crates/tora/out" "$copy/dev" "$copy/docs" "$root/usr/share/tora"
  cp ../../tora ../../crates.txt "$copy/"
  cp -R "$here"/{install.py,library.py,installed.sh,tora.lua,completion} "$copy/dev/"
  cp -R ../../docs/man "$copy/docs/"
  refuses 2 'the program is not built' "$tora" install
  refuses 2 'the program is not built' "$tora" deb
  printf '#!/bin/sh\necho "the program, $*${GLIBC_TUNABLES+ in pages as $GLIBC_TUNABLES}"\n' >"$program"
  chmod +x "$program"
  touch -d '1 minute ago' "$program"
  touch "$copy/crates/tora/src/main.rt"
  refuses 2 'the program is older than its sources' "$tora" install
  touch "$program"
  refuses 2 'a path from the root on' "$tora" install usr
  refuses 1 'Not a directory' env DESTDIR="$program" "$tora" install
  echo 'of somebody else' >"$root/usr/share/tora/other"
  DESTDIR=$root "$tora" install /usr >"$work/told"
  ln -s "$root/usr/bin/tora" "$work/linked"
  # A large world has pages of 2 MB by whatever name the program is run, unless the variable is set already.
  (
    unset GLIBC_TUNABLES
    cd "$root"
    usr/bin/tora sim x
    PATH=$root/usr/bin:$PATH tora sim --large 'a b'
    "$work/linked" sim --large x
    GLIBC_TUNABLES=theirs usr/bin/tora drive --large
    find . -type f -printf '%m %P\n' | sort -k2
  ) >"$work/installed"
  same installed "$work/installed"
  DESTDIR=$root "$tora" uninstall /usr >"$work/told"
  (cd "$root" && find . -type f) >"$work/found"
  echo ./usr/share/tora/other >"$work/wanted"
  agrees "$work/wanted" "$work/found" 'what stays behind uninstall'
}

# Completion for bash: what is offered after words, and for the beginning of the next word.
check_completion() {
  local it
  while IFS= read -r it; do
    echo "$it: $(cd ../../examples/line-of-four && ../../dev/completion/offers.sh "$it")"
  done >"$work/completion" <<<$'tora \ntora s\n../../tora i\ntora -v sim --t\ntora sim --times 1 \ntora node --ch\ntora node --log w\ntora node n1\ntora drive --t\ntora help '
  same completion "$work/completion"
}

# The forms of lines in the manual pages and the help are those of docs/formats.md.
check_forms() {
  python3 "$here/forms.py" >"$work/found" || true
  agrees /dev/null "$work/found" 'docs/formats.md has lines that the manual pages or the help lack, which'
}

# Two processes on one life file: the second ends with status 4 and names the file, and a killed one leaves no lock behind.
check_lock() {
  local program=$here/../crates/tora/out/tora it process
  [ -x "$program" ] || return 0
  for it in 3 4; do
    printf 'node = 1\ndests = [2]\nlife_dir = "%s"\n[[link]]\npeer = 2\nlocal = 40%d12\nremote = 40%d21\n' "$work/lives" $it $it >"$work/$it.toml"
  done
  mkfifo "$work/commands"
  "$program" node "$work/3.toml" <"$work/commands" >"$work/table" 2>"$work/log" &
  process=$!
  exec 9>"$work/commands"
  echo show >&9
  for ((it = 0; it < 100; it++)); do [ ! -s "$work/table" ] || break; sleep 0.05; done
  refuses 4 "tora: life: $work/lives/life-2: " "$program" node "$work/4.toml" </dev/null
  disown "$process"
  kill -9 "$process"
  for ((it = 0; it < 100; it++)); do kill -0 "$process" 2>/dev/null || break; sleep 0.05; done
  refuses 0 '' "$program" node "$work/4.toml" </dev/null
  exec 9>&-
}

# The log of a node: what it tells at each level, and the time before a line. A node that can't bind its socket has another status.
check_log() {
  local program=$here/../crates/tora/out/tora time='20[0-9-]{8}T[0-9:]{8}\.[0-9]{3}Z '
  [ -x "$program" ] || return 0
  printf 'node = 1\ndests = [2]\nlife_dir = "%s"\n[[link]]\npeer = 2\nlocal = 40512\nremote = 40521\n' "$work/logged" >"$work/5.toml"
  echo other >"$work/words"
  refuses 0 '[WARN  tora_node::commands] ' "$program" node "$work/5.toml" <"$work/words"
  refuses 0 '[INFO  tora_node::link_task] link 2 bad datagrams 0' "$program" node "$work/5.toml" <"$work/words"
  refuses 0 '' "$program" node --log warn --log-time "$work/5.toml" <"$work/words"
  cp "$work/err" "$work/told"
  holds 'a line of the log has its time' grep -qE "^$time\[WARN  tora_node::commands\] " "$work/told"
  holds 'a node logs up to its level' test "$(wc -l <"$work/told")" = 1
  holds 'a node that logs nothing runs' "$program" node --log off "$work/5.toml" <"$work/words"
  cp "$work/err" "$work/told"
  holds 'a node logs nothing' test ! -s "$work/told"
  refuses 2 "invalid value 'loud'" "$program" node --log loud "$work/5.toml" <"$work/words"
}

# Keys: two nodes have a link where their keys are the same; with two keys, or one of them without, each says that what comes is
# not authentic (the one without a key finds no frame in it). A file that holds no key, or can't be read, is told and never what it holds.
check_keys() {
  local program=$here/../crates/tora/out/tora it n
  [ -x "$program" ] || return 0
  for it in one other; do (umask 077 && "$program" key >"$work/$it.key"); done
  holds 'a key has 64 digits' grep -qE '^[0-9a-f]{64}$' "$work/one.key"
  holds 'no two keys are the same' test "$(cat "$work/one.key")" != "$(cat "$work/other.key")"
  linked() {
    for n in 1 2; do
      printf 'node = %d\ndests = [2]\nlife_dir = "%s"\n[[link]]\npeer = %d\nlocal = 4070%d\nremote = "127.0.0.1:4070%d"\n' $n "$work/keyed$n" $((3 - n)) $n $((3 - n)) >"$work/$n.toml"
      [ -z "${!n}" ] || printf 'key_file = "%s"\n' "$work/${!n}.key" >>"$work/$n.toml"
      sleep 2.5 | "$program" node "$work/$n.toml" >/dev/null 2>"$work/keyed$n.log" &
    done
    wait
  }
  linked one one
  holds 'nodes with one key have a link' grep -q 'link 2 up' "$work/keyed1.log"
  holds 'all that comes is authentic' test "$(cat "$work"/keyed?.log | grep -c unauthenticated)" = 2
  holds 'the end says so' test "$(cat "$work"/keyed?.log | grep -c '^\[INFO .* link [12] unauthenticated datagrams 0$')" = 2
  linked one other
  holds 'nodes with two keys have no link' test "$(cat "$work"/keyed?.log | grep -c ' up ')" = 0
  holds 'each says so once' test "$(grep -c '^\[WARN .* link [12] unauthenticated datagrams 1$' "$work/keyed1.log" "$work/keyed2.log" | grep -c ':1$')" = 2
  holds 'and no more in a minute' test "$(cat "$work"/keyed?.log | grep -c '^\[WARN ')" = 2
  holds 'each has the count at its end' test "$(cat "$work"/keyed?.log | grep -c '^\[INFO .* link [12] unauthenticated datagrams [1-9]')" = 2
  linked other other
  holds 'nodes whose keys agree again have a link' test "$(grep -c 'link [12] up' "$work/keyed1.log" "$work/keyed2.log" | grep -c ':[1-9]')" = 2
  linked one ''
  holds 'a node without the key has no link' test "$(cat "$work"/keyed?.log | grep -c ' up ')" = 0
  holds 'the one with a key says so' grep -q 'link 2 unauthenticated datagrams 1' "$work/keyed1.log"
  holds 'the one without finds no frame' grep -qE 'link 1 bad datagrams [1-9]' "$work/keyed2.log"
  holds 'the one without a key counts none' test "$(grep -c unauthenticated "$work/keyed2.log")" = 0
  head -c 63 "$work/one.key" >"$work/short.key"
  sed -i 's/one.key/short.key/' "$work/1.toml"
  refuses 1 "tora: input: $work/short.key: is no key" "$program" node --check "$work/1.toml"
  holds 'what the file holds is not told' test "$(grep -cF "$(head -c 8 "$work/short.key")" "$work/err")" = 0
  rm "$work/short.key"
  refuses 1 "tora: input: $work/short.key: " "$program" node --check "$work/1.toml"
  cp "$work/one.key" "$work/short.key"
  chmod 644 "$work/short.key"
  refuses 0 "tora: warning: $work/short.key: others can read" "$program" node --check "$work/1.toml"
  sed -i '/key_file/d; s/127.0.0.1/10.9.9.9/' "$work/1.toml"
  refuses 1 'is missing, and the link leaves the loopback' "$program" node --check "$work/1.toml"
}

# What a node prints for programs: `watch` tells its heights and next hops as they change, `json` its state, as docs/status.schema.json has
# it where there is the module jsonschema (package python3-jsonschema).
check_status() {
  local program=$here/../crates/tora/out/tora n
  [ -x "$program" ] || return 0
  for n in 1 2; do
    printf 'node = %d\ndests = [2]\nlife_dir = "%s"\n[[link]]\npeer = %d\nlocal = 4080%d\nremote = 4080%d\n' $n "$work/status$n" $((3 - n)) $n $((3 - n)) >"$work/$n.toml"
  done
  sleep 4 | "$program" node "$work/2.toml" >/dev/null 2>&1 &
  (echo watch; sleep 2.5; echo json; echo need 9; echo cut 2) | "$program" node "$work/1.toml" >"$work/told" 2>/dev/null
  wait
  grep -v '^{' "$work/told" >"$work/lines" || true
  printf '%s\n' 'height 2 -' 'hop 2 -' 'hop 2 2' 'refused 5' 'hop 2 -' >"$work/wanted"
  agrees "$work/wanted" "$work/lines" 'what a watched node prints'
  grep '^{' "$work/told" >"$work/state" || true
  holds 'the state of a node is a line of JSON' python3 -c '
import json, sys
lines = open(sys.argv[1]).read().splitlines()
state = json.loads(lines[0])
own, peer = state["links"][0].pop("life")
assert len(lines) == 1 and abs(state.pop("tick") / 10 - __import__("time").time()) < 60 and own > 0 and peer > 0
via = {"node": 2, "height": [0, 0, 0, 0, 2], "direction": "down"}
assert state == {"node": 1, "destinations": [{"to": 2, "height": None, "required": False, "hop": 2, "via": [via]}], "links": [{"peer": 2, "cut": None}]}
' "$work/state"
  if python3 -c 'import jsonschema' 2>/dev/null; then
    holds 'it is as its schema has it' python3 -c '
import json, jsonschema, sys
jsonschema.validate(*[json.load(open(it)) for it in sys.argv[1:]])
' "$work/state" "$here/../docs/status.schema.json"
  fi
}

# Each file has a licence, as the command reuse (package reuse) reads it.
check_licence() {
  if ! command -v reuse >/dev/null; then
    echo "check: no reuse (package reuse); the licences are not checked"
    return
  fi
  holds 'each file has a licence' reuse --root ../.. lint
}

# Each place that states the version states that of VERSION.
check_version() {
  holds 'the version is the same in each place' "$here/version.py"
  refuses 2 'usage: dev/version.py' "$here/version.py" 1.0.0
}

# Limits have names: no further number is written in several files.
check_literals() {
  holds 'numbers in several files have a name or a reason' "$here/literals.py"
}

# The module for ns-3: its checks, where ns3/build has built it.
check_ns3() {
  if [ ! -x "${TORA_NS3_OUT:-$here/../out/ns3}/tora-test" ]; then
    echo "check: the module for ns-3 is not built (ns3/build); it is not tried"
    return
  fi
  holds 'the module for ns-3' ../../ns3/check
}

check_lock
check_status
check_keys
check_log
check_package
check_usage
check_forms
check_dissector
check_install
check_library
check_completion
check_licence
check_version
check_literals
check_ns3
echo "$passed passed, $failed failed"
[ "$failed" = 0 ]
