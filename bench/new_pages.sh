#!/usr/bin/env bash
# Which requests for memory first write a program's new pages: this counts the page faults within each malloc and realloc, by the
# requested size, and prints the 24 sizes with the most. Sizes above 4 kB are rounded down to 1 kB, above 64 kB to 64 kB.
# Pages that are first written later count only in the total: the first line says how many faults were within such calls, and how
# many there were in all.
# usage: bench/new_pages.sh PROGRAM WORD..      the output of the program is discarded
set -eu
case ${1-} in
  -h | --help) sed -n '2,/^set -eu/{/^# /s/^# //p}' "$0"; exit 0 ;;
  -*) echo "new_pages: no option $1 (--help)" >&2; exit 2 ;;
  '') echo 'new_pages: no program: bench/new_pages.sh PROGRAM WORD..' >&2; exit 2 ;;
esac
command -v "$1" >/dev/null || { echo "new_pages: no program stands at $1" >&2; exit 2; }
command -v cc >/dev/null || { echo 'new_pages: cc is missing (package gcc)' >&2; exit 2; }
work=$(mktemp -d)
trap 'rm -rf "$work"' EXIT
cat >"$work/counts.c" <<'C'
#define _GNU_SOURCE
#include <dlfcn.h>
#include <stdio.h>
#include <stdlib.h>
#include <sys/resource.h>
#include <sys/syscall.h>
#include <unistd.h>

struct row { size_t size; long calls, faults; int again; };
static struct row rows[4096];
static int many;
static void *(*first)(size_t);
static void *(*more)(void *, size_t);

static long faults(void) {
  struct rusage usage;
  getrusage(RUSAGE_SELF, &usage);
  return usage.ru_minflt;
}

static void note(size_t size, long count, int again) {
  size_t step = size > 65536 ? 65536 : size > 4096 ? 1024 : 1;
  size -= size % step;
  for (int at = 0; at < many; at++)
    if (rows[at].size == size && rows[at].again == again) {
      rows[at].calls++;
      rows[at].faults += count;
      return;
    }
  if (many < 4096) rows[many++] = (struct row){size, 1, count, again};
}

void *malloc(size_t size) {
  if (!first) first = dlsym(RTLD_NEXT, "malloc");
  long before = faults();
  void *memory = first(size);
  note(size, faults() - before, 0);
  return memory;
}

void *realloc(void *old, size_t size) {
  if (!more) more = dlsym(RTLD_NEXT, "realloc");
  long before = faults();
  void *memory = more(old, size);
  note(size, faults() - before, 1);
  return memory;
}

static int order(const void *a, const void *b) {
  long x = ((const struct row *)a)->faults, y = ((const struct row *)b)->faults;
  return x < y ? 1 : x > y ? -1 : 0;
}

__attribute__((destructor)) static void print(void) {
  static int done;
  if (done++) return;
  long within = 0;
  for (int at = 0; at < many; at++) within += rows[at].faults;
  qsort(rows, many, sizeof rows[0], order);
  fprintf(stderr, "new pages within calls for memory: %ld, in all %ld\n", within, faults());
  for (int at = 0; at < 24 && at < many; at++)
    fprintf(stderr, "%s of %zu bytes: %ld calls, %ld new pages\n", rows[at].again ? "realloc" : "malloc", rows[at].size, rows[at].calls, rows[at].faults);
}

// `tora` ends so, and leaves what a world took to the system.
void _exit(int status) {
  print();
  syscall(SYS_exit_group, status);
  __builtin_unreachable();
}
C
cc -O2 -shared -fPIC -o "$work/counts.so" "$work/counts.c" -ldl
LD_PRELOAD="$work/counts.so" "$@" >/dev/null
