#!/bin/sh
# Instructions of one row, and the peak memory, for four banks and for one model of one state, counted by callgrind.
# Usage: bench/banks.sh [ROWS] [PROFILE]; needs rt, valgrind, and awk. With PROFILE, the functions that take most in the largest bank are listed.
set -eu
rows=${1:-20}
here=$(cd "$(dirname "$0")" && pwd)
program=$here/../crates/zonomon/out/zonomon
work=$(mktemp -d)
trap 'rm -rf "$work"' EXIT
(cd "$here/../crates/zonomon" && rt run -- help >/dev/null 2>&1)

# A bank of stable models that differ a little, all of which a unit at rest obeys: MODELS STATES INPUTS OUTPUTS DISTURBANCES.
bank() {
    awk -v models="$1" -v n="$2" -v p="$3" -v m="$4" -v w="$5" '
    function list(count, f, r, i, text) { text = "["; for (i = 0; i < count; i++) text = text (i ? ", " : "") entry(f, r, i); return text "]" }
    function rows(count, width, f, r, text) { text = "["; for (r = 0; r < count; r++) text = text (r ? ", " : "") list(width, f, r); return text "]" }
    function entry(f, r, i) {
        if (f == "A") return "\"" (r == i ? 0.8 + k / 100 : ((r + i) % 3 - 1) * 0.03 + 0.001) "\""
        if (f == "B") return "\"" 0.1 * (r + i + 1) "\""
        if (f == "C") return "\"" (r == i ? 1 : ((r * i + k) % 2) * 0.25) "\""
        if (f == "D") return "0"
        if (f == "E") return "\"" (r == i ? 0.02 : 0.001) "\""
        if (f == "noise") return "\"0.1\""
        if (f == "centre") return "0"
        if (f == "radius") return "1"
        return "1000000"
    }
    function names(count, letter, i, text) { text = "["; for (i = 0; i < count; i++) text = text (i ? ", " : "") "\"" letter i "\""; return text "]" }
    BEGIN {
        print "version = 1\ninputs = " names(p, "u") "\noutputs = " names(m, "y")
        for (k = 0; k < models; k++) {
            print "[[model]]\nname = \"m" k "\"\nstates = " n "\ndisturbances = " w
            print "A = " rows(n, n, "A") "\nB = " rows(n, p, "B") "\nC = " rows(m, n, "C") "\nD = " rows(m, p, "D") "\nE = " rows(n, w, "E")
            print "noise = " list(m, "noise", 0) "\ncentre = " list(n, "centre", 0) "\nradius = " list(n, "radius", 0) "\nstate_max = " list(n, "state_max", 0)
        }
    }' >"$work/model"
}

# Its telemetry of so many rows at rest: ROWS INPUTS OUTPUTS LOST. Every row of which the number is a multiple of LOST has no reading.
telemetry() {
    awk -v rows="$1" -v p="$2" -v m="$3" -v lost="$4" 'BEGIN {
        line = "time"; for (i = 0; i < p; i++) line = line ",u" i; for (i = 0; i < m; i++) line = line ",y" i; print line
        for (k = 0; k < rows; k++) {
            line = k; for (i = 0; i < p; i++) line = line ",0"
            for (i = 0; i < m; i++) line = line "," (lost && k % lost == 0 ? "" : sprintf("%.9f", ((k * 7 + i * 3) % 11 - 5) / 1000))
            print line
        }
    }' >"$work/telemetry"
}

took() {
    valgrind --tool=callgrind --callgrind-out-file="$work/counts" "$program" run "$work/model" "$work/telemetry" 2>"$work/said" >"$work/report"
    sed -n 's/^.*Collected : \([0-9]*\).*$/\1/p' "$work/said"
}

# The most memory that the program held, read while it waits for more telemetry.
peak() {
    mkfifo "$work/pipe"
    "$program" run "$work/model" - <"$work/pipe" >/dev/null &
    held=$!
    { cat "$work/telemetry"; sleep 1; sed -n 's/^VmHWM:[^0-9]*\([0-9]*\).*$/\1/p' "/proc/$held/status" >"$work/peak"; } >"$work/pipe"
    wait "$held"
    rm "$work/pipe"
    cat "$work/peak"
}

# NAME MODELS STATES INPUTS OUTPUTS DISTURBANCES LOST
row() {
    bank "$2" "$3" "$4" "$5" "$6"
    telemetry "$rows" "$4" "$5" "$7"
    few=$(took)
    telemetry "$((2 * rows))" "$4" "$5" "$7"
    many=$(took)
    excluded=$(grep -c '^x' "$work/report" || true)
    echo "$1: $(((many - few) / rows)) instructions a row, $excluded models excluded, $(peak) KiB at the most"
}

row "1 model of 1 state, half of the readings lost" 1 1 0 1 0 2
row "3 models of 2 states, 1 output" 3 2 1 1 2 0
row "3 models of 2 states, 2 outputs" 3 2 1 2 2 0
row "4 models of 4 states, 2 outputs" 4 4 1 2 4 0
row "16 models of 8 states, 6 outputs, 4 inputs, 8 disturbances" 16 8 4 6 8 0
[ "${2:-}" = "" ] || callgrind_annotate --threshold=100 "$work/counts" | sed -n '/Ir/,$p' | head -n "$2"
