#!/bin/sh
# Runs the program `tora`, which ./tora install put beside this script, with the given words. For a large world the C library asks
# the system for pages of 2 MB, if this variable says so when the program starts.
for word in "$@"; do
  [ "$word" != --large ] || export GLIBC_TUNABLES="${GLIBC_TUNABLES-glibc.malloc.hugetlb=1}"
done
here=$0
[ ! -h "$here" ] || here=$(readlink -f -- "$here")
case $here in
*/*) ;;
*) here=./$here ;;
esac
exec "${here%/*}/../libexec/tora" "$@"
