#!/usr/bin/env bash
# Checks that each file of code, also of tests, has the layout of `rt fmt`: the merge gate refuses a crate with a file that has
# not, and reports it an hour later. Files without it are put into the layout, and named. This takes half a minute.
# usage: dev/layout.sh [CRATE ..]     without a CRATE, all crates
# Status 1 if a file was not in the layout, 2 if a crate or `rt` is missing.
set -u
top=$(cd "$(dirname "$0")/.." && pwd)
case ${1-} in
  -h | --help) sed -n '2,/^set -u/s/^# //p' "$0"; exit 0 ;;
  -*) echo "layout.sh: no option $1 (--help)" >&2; exit 2 ;;
esac
command -v rt >/dev/null || { echo "layout.sh: there is no command rt" >&2; exit 2; }
cd "$top/crates" || exit 2
[ $# -gt 0 ] || set -- */
status=0
for crate in "$@"; do
  crate=${crate%/}
  [ -d "$crate/src" ] || { echo "layout.sh: no crate is named '$crate'" >&2; exit 2; }
  said=$(cd "$crate" && rt fmt 2>&1) || { echo "$crate: $said" >&2; exit 2; }
  if grep -q '^rt: formatted' <<<"$said"; then
    sed "s|^rt: formatted |$crate/|" <<<"$said"
    status=1
  fi
done
exit "$status"
