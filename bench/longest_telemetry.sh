#!/usr/bin/env bash
# Monitors a telemetry of 1,073,741,824 bytes, the most that there may be, in lines of 4,096 bytes, and one with a byte more. Prints
# for each its status, its last line and the most memory held. Status 1 where one is not what it has to be.
# Usage: bench/longest_telemetry.sh; needs the program built (./zonomon help), and no room on a disk.
set -u
here=$(cd "$(dirname "${BASH_SOURCE[0]}")/.." && pwd)
program=$here/crates/zonomon/out/zonomon
room=$(mktemp -d)
trap 'rm -rf "$room"' EXIT
failed=0

"$here/zonomon" help >/dev/null || exit 1

# 262,144 lines of 4,096 bytes with their line feeds: the header, and readings of 0
lines() {
  printf 'y%4094s\n' ''
  yes "$(printf '0%4094s' '')" | head -n 262143
}

# the most memory that a process has held, in KiB, looked at five times a second until it ends
most_held() {
  local most=0 held
  while kill -0 "$1" 2>/dev/null; do
    held=$(awk '/^VmHWM/ { print $2 }' "/proc/$1/status" 2>/dev/null)
    [ "${held:-0}" -gt "$most" ] && most=$held
    sleep 0.2
  done
  echo "$most"
}

# monitor NAME STATUS LINE: monitors what comes on standard input, and compares how that ends
monitor() {
  local began=$SECONDS job most status last
  "$program" run "$here/examples/p.toml" - <&0 >"$room/out" 2>"$room/err" &
  job=$!
  most=$(most_held "$job")
  wait "$job"
  status=$?
  last=$(tail -n 1 "$room/out" "$room/err" 2>/dev/null | grep -v '^==>' | grep . | tail -n 1)
  echo "$1: status $status, '$last', $((SECONDS - began)) s, $most KiB at the most"
  [ "$status" = "$2" ] && [ "$last" = "$3" ] || failed=1
}

monitor "1,073,741,824 bytes" 0 "end 262143" < <(lines)
monitor "one byte more" 3 "telemetry refused: line 262145: file over 1073741824 bytes" < <(lines; printf 0)
exit "$failed"
