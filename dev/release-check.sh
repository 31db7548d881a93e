#!/usr/bin/env bash
# Installs the Debian packages in a new Debian system in a folder of its own, and tries them as a new user would. It is for a release
# and not part of the gate: it needs root, the command debootstrap and a mirror of Debian, takes some minutes, and 2 GB under TMPDIR.
# usage: dev/release-check.sh [--quick] [--suite SUITE] [--mirror URL] [DIR]
#   --quick   do not compile the example of the module for ns-3 against libns3-dev; the built example still runs, and the
#             examples of the library are compiled
#   --suite SUITE, --mirror URL    the Debian system that is made; the defaults are bookworm and the mirror that apt uses here
#   DIR       where the packages are; the default is out/deb (./tora deb makes them)
# The last line says how many checks passed and failed. The status is 0 if all passed, 1 if one failed, 2 for wrong usage or if something is missing.
set -eu
here=$(cd "$(dirname "$0")" && pwd)
quick='' suite=bookworm mirror=$(apt-get indextargets --format '$(REPO_URI)' 'Created-By: Packages' | head -n 1)
while [ $# -gt 0 ]; do
  case $1 in
    -h | --help) sed -n '2,/^set -eu/{/^# /s/^# //p}' "$0"; exit 0 ;;
    --quick) quick=1; shift ;;
    --suite) suite=${2:?}; shift 2 ;;
    --mirror) mirror=${2:?}; shift 2 ;;
    -*) echo "release-check: no option $1 (--help)" >&2; exit 2 ;;
    *) break ;;
  esac
done
packages=${1:-$here/../out/deb}

stop() {
  echo "release-check: $1" >&2
  exit 2
}

[ "$(id -u)" = 0 ] || stop 'it needs root'
command -v debootstrap >/dev/null || stop 'debootstrap is missing (package debootstrap)'
ls "$packages"/tora_*.deb >/dev/null 2>&1 || stop "no package tora in $packages (./tora deb)"
case $(ls "$packages"/tora_*.deb) in *unproved*) echo 'release-check: the program in these packages is not proved' ;; esac
work=$(mktemp -d)
root=$work/root
passed=0 failed=0

end() {
  umount "$root/proc" 2>/dev/null || true
  rm -rf --one-file-system "$work"
}
trap end EXIT

# Runs a line of sh in the new system.
inside() {
  chroot "$root" env -i PATH=/usr/sbin:/usr/bin:/sbin:/bin HOME=/root LC_ALL=C.UTF-8 DEBIAN_FRONTEND=noninteractive sh -c "$1" </dev/null
}

# A line of sh that has to end well in the new system.
holds() {
  if inside "$2" >"$work/out" 2>&1; then
    passed=$((passed + 1))
    echo "release-check: $1"
  else
    failed=$((failed + 1))
    echo "release-check: NOT SO: $1: $2" >&2
    tail -5 "$work/out" >&2
  fi
}

# A line of sh whose output has to have a line.
prints() {
  holds "$1" "$3"
  if grep -qxF -- "$2" "$work/out"; then
    passed=$((passed + 1))
    echo "    $2"
  else
    failed=$((failed + 1))
    echo "release-check: NOT SO: it prints \`$2\`: $3" >&2
  fi
}

make_system() {
  echo "release-check: a new Debian system ($suite) is made"
  debootstrap --variant=minbase "$suite" "$root" "$mirror" >"$work/log" 2>&1 || { tail -5 "$work/log" >&2; stop 'debootstrap makes no system'; }
  # the mirror is found as it is here
  cp /etc/hosts /etc/resolv.conf "$root/etc/"
  mount -t proc proc "$root/proc" 2>/dev/null || true
  mkdir "$root/packages"
  cp "$packages"/*.deb "$root/packages/"
}

check_program() {
  holds 'tora is installed' 'apt-get install -y --no-install-recommends /packages/tora_*.deb'
  prints 'an example is simulated' 'node 1 (0,0,0,3,1) hop 2' 'tora sim /usr/share/doc/tora/examples/line-of-four.sim'
  holds 'it prints its version' 'tora --version'
  holds 'each simulation prints what is expected' 'cd /usr/share/doc/tora/examples && for it in *.sim; do tora sim $it | cmp - ${it%.sim}.expected || exit 1; done'
  holds 'each replay does' 'cd /usr/share/doc/tora/examples && for it in *.replay; do tora replay <$it | cmp - ${it%.replay}.expected || exit 1; done'
  prints 'four nodes find a route' 'node 1: to 4 height (0,0,0,3,1) flag 0 hop 2' '/usr/share/doc/tora/examples/line-of-four/run'
  holds 'four nodes with keys find it' '/usr/share/doc/tora/examples/line-of-four-keyed/run'
  for page in tora.1 tora-sim.1 tora-node.1 tora-drive.1 tora-replay.1 tora.5; do
    holds "the page $page is there" "zcat /usr/share/man/man${page##*.}/$page.gz | grep -q '^.TH '"
  done
  holds 'the document that the help names is there' 'test -s /usr/share/doc/tora/docs/formats.md'
}

check_module() {
  if ! ls "$packages"/ns3-tora_*.deb >/dev/null 2>&1; then
    echo 'release-check: there is no package ns3-tora; it is not tried'
    return
  fi
  holds 'ns3-tora is installed' 'apt-get install -y --no-install-recommends $(ls /packages/libtora0_*.deb 2>/dev/null) /packages/ns3-tora_*.deb'
  if [ -x "$root/usr/libexec/ns3-tora/tora-line" ]; then
    prints 'the example of the module runs' 'received 100 of 100' '/usr/libexec/ns3-tora/tora-line'
  fi
  [ -z "$quick" ] || return 0
  holds 'a compiler and ns-3 are installed' 'apt-get install -y --no-install-recommends g++ libns3-dev'
  holds 'the example compiles' "cd /tmp && $(sed -n '/^g++ /,/^```/{/^```/d; s/ *#.*//; s/\\$//; p}' "$here/../docs/how-to/install.md" | tr -d '\n')"
  prints 'it runs' 'received 100 of 100' '/tmp/tora-line'
}

check_python() {
  if ! ls "$packages"/python3-tora_*.deb >/dev/null 2>&1; then
    echo 'release-check: there is no package python3-tora; it is not tried'
    return
  fi
  holds 'python3-tora is installed' 'apt-get install -y --no-install-recommends /packages/python3-tora_*.deb'
  holds 'Python imports it' 'cd / && python3 -c "import tora"'
  for page in tora-routes.8 tora-study.1; do
    holds "the page $page is there" "zcat /usr/share/man/man${page##*.}/$page.gz | grep -q '^.TH '"
  done
}

check_library() {
  local examples=/usr/share/doc/libtora-dev/examples python=''
  if ! ls "$packages"/libtora0_*.deb >/dev/null 2>&1; then
    echo 'release-check: there is no package libtora0; it is not tried'
    return
  fi
  holds 'libtora0 is installed' 'apt-get install -y --no-install-recommends /packages/libtora0_*.deb'
  if inside 'dpkg -s python3-tora' >/dev/null 2>&1; then
    python=1
    holds 'Python finds it' 'cd / && python3 -c "import tora; tora.Core(3, [2, 4], [4]).close()"'
  fi
  holds 'libtora-dev and a compiler are installed' 'apt-get install -y --no-install-recommends /packages/libtora-dev_*.deb g++ pkg-config'
  holds 'the example in C compiles' "cc $examples/line.c \$(pkg-config --cflags --libs tora) -o /tmp/line"
  prints 'it runs' 'node 1 (0,0,0,3,1) hop 2' '/tmp/line'
  holds 'it prints the four heights' "/tmp/line | cmp - $examples/line.expected"
  holds 'it takes the library of the package' 'ldd /tmp/line | grep -q "libtora.so.0 => \(/usr\)\?/lib/"'
  holds 'each example prints what is expected' "$examples/run"
  if [ -n "$python" ]; then
    holds 'the library has the version that tora.pc tells' \
      'python3 -c "import sys; from tora import lib; sys.exit(lib.version() != sys.argv[1])" $(pkg-config --modversion tora)'
  fi
  holds 'the guide is there' 'test -s /usr/share/doc/libtora-dev/embed.md'
  holds 'both are removed' 'apt-get remove -y libtora0 libtora-dev'
  holds 'nothing of them stays' \
    'test -z "$(ls -d /usr/lib/*/libtora.* /usr/lib/*/pkgconfig/tora.pc /usr/include/tora.h /usr/share/doc/libtora* /var/lib/dpkg/info/libtora* 2>/dev/null)"'
  holds 'nor does the linker find it' '! ldconfig -p | grep libtora.so'
}

# What stays behind when the packages go: configurations always, life files until tora is purged.
check_removal() {
  holds 'a service has files' 'echo x >/etc/tora/1.toml && mkdir -p /var/lib/tora/1 && echo x >/var/lib/tora/1/life-2'
  holds 'the packages are removed' 'apt-get remove -y tora'
  holds 'configurations and life files stay' 'test -e /etc/tora/1.toml && test -e /etc/tora/README && test -e /var/lib/tora/1/life-2 && ! test -e /usr/bin/tora'
  holds 'tora is purged' 'apt-get purge -y tora'
  holds 'its own files are gone' '! test -e /var/lib/tora && ! test -e /etc/tora/README && test -e /etc/tora/1.toml'
}

make_system
check_program
check_module
check_python
check_library
check_removal
echo "release-check: $passed passed, $failed failed"
[ "$failed" = 0 ]
