#!/usr/bin/env bash
# Refuses the program each of its requests for memory in turn: the first, then the second, and so on up to the last that a call makes.
# Each call has to end with status 6 and a front of its output, or with 13 and nothing put where its words could not be read, or as
# it ends with all memory. Prints a line for each call and how many requests were refused; status 1 where one ended otherwise.
# Usage: bench/refused_memory.sh; needs a C compiler, and the program built (./zonomon help).
set -u
here=$(cd "$(dirname "${BASH_SOURCE[0]}")/.." && pwd)
program=$here/crates/zonomon/out/zonomon
room=$(mktemp -d)
trap 'rm -rf "$room"' EXIT
failed=0

"$here/zonomon" help >/dev/null || exit 1

# a library in front of the system's, in which request REFUSED, from 1, finds no memory
cat >"$room/refuse.c" <<'END'
#define _GNU_SOURCE
#include <dlfcn.h>
#include <errno.h>
#include <stdlib.h>

static unsigned long refused, count;

__attribute__((constructor)) static void begin(void) {
    const char *number = getenv("REFUSED");
    refused = number ? strtoul(number, NULL, 10) : 0;
    count = 0;
}

static int is_refused(void) {
    if (refused == 0 || ++count != refused) return 0;
    errno = ENOMEM;
    return 1;
}

void *malloc(size_t size) {
    static void *(*next)(size_t);
    if (!next) next = dlsym(RTLD_NEXT, "malloc");
    return is_refused() ? NULL : next(size);
}

void *realloc(void *old, size_t size) {
    static void *(*next)(void *, size_t);
    if (!next) next = dlsym(RTLD_NEXT, "realloc");
    return is_refused() ? NULL : next(old, size);
}

void *aligned_alloc(size_t alignment, size_t size) {
    static void *(*next)(size_t, size_t);
    if (!next) next = dlsym(RTLD_NEXT, "aligned_alloc");
    return is_refused() ? NULL : next(alignment, size);
}

int posix_memalign(void **place, size_t alignment, size_t size) {
    static int (*next)(void **, size_t, size_t);
    if (!next) next = dlsym(RTLD_NEXT, "posix_memalign");
    return is_refused() ? ENOMEM : next(place, alignment, size);
}
END
cc -shared -fPIC -O1 -o "$room/refuse.so" "$room/refuse.c" -ldl || exit 1

# call NUMBER WORD..: the program with this request refused; keeps its status, its output and its standard error
call() {
  local number=$1
  shift
  LD_PRELOAD=$room/refuse.so REFUSED=$number "$program" "$@" >"$room/out" 2>"$room/err" </dev/null
  status=$?
}

# is_front FILE: what the last call put begins this file
is_front() { cmp -s -n "$(stat -c %s "$room/out")" "$room/out" "$1"; }

# refuse_each WORD..: each request in turn, until the call makes fewer
refuse_each() {
  local number=0 refusals=0 unread=0 same=0
  call 0 "$@"
  local whole_status=$status
  cp "$room/out" "$room/whole"
  cp "$room/err" "$room/whole_err"
  while :; do
    number=$((number + 1))
    call "$number" "$@"
    if [ "$status" = 6 ] && [ "$(cat "$room/err")" = "out of memory" ] && is_front "$room/whole"; then
      refusals=$((refusals + 1))
      same=0
    elif [ "$status" = 13 ] && [ ! -s "$room/out" ] && [ ! -s "$room/err" ]; then
      unread=$((unread + 1))
      same=0
    elif [ "$status" = "$whole_status" ] && cmp -s "$room/out" "$room/whole" && cmp -s "$room/err" "$room/whole_err"; then
      same=$((same + 1))
      # no request of a call is so far behind the others that twenty in a row change nothing
      [ "$same" = 20 ] && break
    else
      failed=1
      echo "failed  $*: request $number: status $status and '$(head -c 100 "$room/err")'"
      break
    fi
  done
  echo "$refusals requests refused with status 6, $unread with 13: ${*##*/}"
}

# A bank of 16 models of 8 states, 6 outputs, 4 inputs and 8 disturbances, and two rows.
awk '
function list(count, text, i, all) { for (i = 0; i < count; i++) all = all (i ? ", " : "") text; return "[" all "]" }
BEGIN {
  print "version = 1\ninputs = [\"a\", \"b\", \"c\", \"d\"]\noutputs = [\"p\", \"q\", \"r\", \"s\", \"t\", \"u\"]"
  eight = list(8, "\"0.01\""); four = list(4, "\"0.01\"")
  for (k = 0; k < 16; k++) {
    print "[[model]]\nname = \"m" k "\"\nstates = 8\ndisturbances = 8"
    print "A = " list(8, eight) "\nB = " list(8, four) "\nC = " list(6, eight) "\nD = " list(6, four) "\nE = " list(8, eight)
    print "noise = " list(6, "\"0.01\"") "\ncentre = " eight "\nradius = " eight "\nstate_max = " eight
  }
}' >"$room/bank.toml"
printf 'a,b,c,d,p,q,r,s,t,u\n0,0,0,0,0,0,0,0,0,0\n0,0,0,0,0,0,0,0,0,0\n' >"$room/bank.csv"

cd "$here/examples" || exit 1
for files in "wheel.toml wheel.csv" "$room/bank.toml $room/bank.csv"; do
  set -- $files
  "$program" run "$1" "$2" >"$room/report" || exit 1
  refuse_each run "$1" "$2"
  refuse_each check "$1" "$2" "$room/report"
done
refuse_each demo 7 100
refuse_each help
exit "$failed"
