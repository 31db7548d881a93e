#!/usr/bin/env bash
# Checks the page of `tora-study page` in a headless Chromium: the page draws what the trace says, and every control works as documented.
# usage: dev/check-page.sh [--picture FILE.png] [--shot PAGE] [--figures PAGE]
#   --picture FILE   keep a picture of the page in the round of a break
#   --shot PAGE      instead of the checks: keep a picture of this page; the round and the destination may follow a #, as in its address
#   --figures PAGE   instead of the checks: how long this page takes to open, and how many pictures a second it draws
# This needs Debian's packages chromium, chromium-driver and python3-selenium, and those that docs/how-to/install.md names.
set -eu
here=$(cd "$(dirname "$0")" && pwd)
case ${1:-} in -h | --help) sed -n '2,/^set -eu/{/^# /s/^# //p}' "$0"; exit 0 ;; esac
browser=$(command -v chromium || command -v google-chrome) || { echo "check-page: chromium is missing (package chromium)" >&2; exit 2; }
driver=$(command -v chromedriver) || { echo "check-page: chromedriver is missing (package chromium-driver)" >&2; exit 2; }
/usr/bin/python3 -c 'import selenium' 2>/dev/null || { echo "check-page: selenium is missing (package python3-selenium)" >&2; exit 2; }
stored=$here/../python/tests/stored
work=$(mktemp -d)
trap 'rm -rf "$work"' EXIT
case " $* " in
  *" --figures "* | *" --shot "*) ;;
  *)
    for run in 7-9 8-2; do "$here/../python/tora-study" page "$stored/$run.json" "$stored/$run.trace" -o "$work/$run.html" >/dev/null; done
    "$here/../python/tora-study" page "$stored/6-1.trace" -o "$work/6-1.html" >/dev/null
    ;;
esac
/usr/bin/python3 "$here/check_page.py" --browser "$browser" --driver "$driver" "$@" "$work"
