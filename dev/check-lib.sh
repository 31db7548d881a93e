#!/usr/bin/env bash
# Checks the library for C over its public header: each call, handles that are null or freed, each allocation refused in turn, two
# libraries in one process, no error and no leak under valgrind, the warnings of C and C++, the symbols, and the examples.
# usage: dev/check-lib.sh       status 0 where all is well, 1 where it is not, 2 where the library is not built (./tora build --lib)
# It takes the packages gcc, g++ and valgrind. The tests of python/ have the random replay files.
set -u
here=$(cd "$(dirname "$0")" && pwd)
top=$here/..
out=$top/out
[ -e "$out/libtora.so.0" ] || { echo "check-lib: the library is not built (./tora build --lib)" >&2; exit 2; }
work=$(mktemp -d)
trap 'rm -rf "$work"' EXIT
strict='-Wall -Wextra -pedantic -Werror'
passed=0 failed=0

# A command that has to end well.
holds() {
  if "${@:2}" >"$work/out" 2>"$work/err"; then
    passed=$((passed + 1))
  else
    failed=$((failed + 1))
    echo "check-lib: $1: ${*:2}" >&2
    head -20 "$work/out" "$work/err" >&2
  fi
}

echo '#include <tora.h>' >"$work/header.c"
cp "$work/header.c" "$work/header.cc"
for it in c99 c11 c17; do holds "the header in $it" gcc -std=$it $strict -I"$top/include" -fsyntax-only "$work/header.c"; done
for it in c++98 c++17; do holds "the header in $it" g++ -std=$it $strict -Wno-long-long -I"$top/include" -fsyntax-only "$work/header.cc"; done
holds 'calls.c compiles' gcc -std=c99 $strict -g -I"$top/include" "$here/lib/calls.c" "$out/libtora.a" -Wl,--wrap=malloc,--wrap=realloc -o "$work/calls"
holds 'each call, and each allocation refused' "$work/calls"
cat "$work/out"
holds 'each call under valgrind' valgrind -q --leak-check=full --show-leak-kinds=all --errors-for-leak-kinds=all --error-exitcode=9 "$work/calls"
holds 'both.cc compiles' g++ -std=c++17 $strict -I"$top/include" "$here/lib/both.cc" "$out/libtora.so.0" -Wl,-rpath,"$out" -ldl -o "$work/both"
cp "$out/libtora.so.0" "$work/second.so"
holds 'two libraries in one process' "$work/both" "$out/libtora.so.0" "$work/second.so"
nm -D --defined-only "$out/libtora.so.0" | sed -n 's/.* T //p' | LC_ALL=C sort >"$work/shared"
sed -n 's/^[a-z].* \(tora_[a-z_]*\)(.*/\1/p' "$top/include/tora.h" | LC_ALL=C sort >"$work/declared"
holds 'the symbols of libtora.so.0 are those of tora.h' diff "$work/declared" "$work/shared"
nm -g --defined-only "$out/libtora.a" | sed -n 's/.* T //p' | LC_ALL=C sort >"$work/archive"
holds 'and those of libtora.a' diff "$work/declared" "$work/archive"
sed -n 's/^ \(tora_[a-z_]*\)@.*/\1/p' "$here/debian/libtora0.symbols" | LC_ALL=C sort >"$work/packaged"
holds 'and those that the package libtora0 names' diff "$work/declared" "$work/packaged"
holds 'the examples' "$top/examples/embed/run"
echo "check-lib: $passed passed, $failed failed"
[ "$failed" = 0 ]
