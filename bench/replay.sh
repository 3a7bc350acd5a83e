#!/bin/bash
# Replays traces of growing size and prints how long each replay takes. It is no test: no time makes
# it fail. Only an answer that is not the wanted one does.
#
# The model has n boolean variables that all turn over at each step. The traces have s states and up
# to about 4 MiB. Each time is that of the whole program, with the launcher's look at the
# sources; the line of 0 states is a run without a command.
set -eu
top=$(cd "$(dirname "$0")/.." && pwd)
dir=$(mktemp -d)
trap 'rm -rf "$dir"' EXIT
cd "$dir"

write_model() {
    awk -v n="$1" 'BEGIN {
        print "MODULE main"
        for (i = 0; i < n; i++) {
            printf "VAR x%d : boolean;\nINIT !x%d\nTRANS next(x%d) = !x%d\n", i, i, i, i
        }
    }' >model.smv
}

write_trace() {
    awk -v n="$1" -v s="$2" 'BEGIN {
        for (k = 1; k <= s; k++) {
            printf "-> State: 1.%d <-\n", k
            value = k % 2 ? "FALSE" : "TRUE"
            for (i = 0; i < n; i++) printf "  x%d = %s\n", i, value
        }
    }' >states.trace
}

# Prints the time of the commands in the file input, on so many variables, states and bytes.
measure() {
    local begin end
    begin=$(date +%s.%N)
    "$top/nusat" model.smv <input >answer
    end=$(date +%s.%N)
    awk -v n="$1" -v s="$2" -v b="$3" -v t0="$begin" -v t1="$end" 'BEGIN {
        t = t1 - t0
        printf "%9d %9d %9d %9.3f %12s\n", n, s, b, t, b ? sprintf("%.3f", t * 1048576 / b) : "-"
    }'
}

replay() {
    write_model "$1"
    write_trace "$1" "$2"
    echo "execute_text_trace states.trace" >input
    measure "$1" "$2" "$(wc -c <states.trace)"
    if [ "$(cat answer)" != "-- the trace is executed, states: $2" ]; then
        echo "bench/replay.sh: unexpected answer: $(cat answer)" >&2
        exit 1
    fi
}

# Builds the program, so that no line has the time of that.
"$top/nusat" </dev/null

printf '%9s %9s %9s %9s %12s\n' variables states bytes seconds seconds/MiB
write_model 1
: >input
measure 1 0 0
for states in 12500 25000 50000 100000; do replay 1 "$states"; done
for states in 3000 6000 12000 24000; do replay 10 "$states"; done
for states in 350 700 1400 2800; do replay 100 "$states"; done
for states in 33 66 132 264; do replay 1000 "$states"; done
