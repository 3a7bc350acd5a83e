#!/bin/bash
# Checks logs of growing size and prints how long each takes and how much memory. It is no test: no time
# makes it fail. Only an answer that is not the wanted one does.
#
# chain: the originals x1 and !xk | xk+1, from which each next variable is learned, to the empty clause at
# the end. holes: the refutation of n + 1 pigeons in n holes by Cook's definitions, whose clauses grow with
# n. Each time is that of the whole program, with the launcher's look at the sources; the line of 0 clauses
# is a run without a command. Memory is the most that the program held, over that of the run without one.
set -eu
top=$(cd "$(dirname "$0")/.." && pwd)
dir=$(mktemp -d)
trap 'rm -rf "$dir"' EXIT
cd "$dir"

# A chain of so many variables.
write_chain() {
    awk -v n="$1" 'BEGIN {
        print "log 1"
        print "1 o 1 0"
        for (k = 1; k < n; k++) printf "%d o -%d %d 0\n", k + 1, k, k + 1
        printf "%d o -%d 0\n", n + 1, n
        id = n + 1
        last = 1
        for (k = 2; k <= n; k++) {
            printf "%d c %d 0 %d %d 0\n", ++id, k, last, k
            last = id
        }
        printf "%d c 0 %d %d 0\n", ++id, last, n + 1
        print "end " id
    }'
}

# n + 1 pigeons in n holes. x[m,i,j] says that pigeon i of m + 1 sits in hole j of m. Those of m - 1 are
# defined by those of m: x[m-1,i,j] is x[m,i,j] | x[m,i,m] & x[m,m+1,j].
write_holes() {
    awk -v n="$1" '
    function line(kind, lits, hints) {
        printf "%d %s%s 0%s\n", ++id, kind, lits, kind == "o" ? "" : hints " 0"
        return id
    }
    BEGIN {
        print "log 1"
        for (m = n; m >= 1; m--)
            for (i = 1; i <= m + 1; i++)
                for (j = 1; j <= m; j++) x[m, i, j] = ++variables
        for (i = 1; i <= n + 1; i++) {
            lits = ""
            for (j = 1; j <= n; j++) lits = lits " " x[n, i, j]
            sits[n, i] = line("o", lits, "")
        }
        for (j = 1; j <= n; j++)
            for (i = 1; i <= n + 1; i++)
                for (k = i + 1; k <= n + 1; k++)
                    apart[n, i, k, j] = line("o", " -" x[n, i, j] " -" x[n, k, j], "")
        for (m = n - 1; m >= 1; m--)
            for (i = 1; i <= m + 1; i++)
                for (j = 1; j <= m; j++) {
                    a = x[m, i, j]; b = x[m + 1, i, j]; c = x[m + 1, i, m + 1]; d = x[m + 1, m + 2, j]
                    left[m, i, j] = line("o", " " a " -" b, "")
                    both[m, i, j] = line("o", " " a " -" c " -" d, "")
                    first[m, i, j] = line("o", " -" a " " b " " c, "")
                    second[m, i, j] = line("o", " -" a " " b " " d, "")
                }
        for (m = n - 1; m >= 1; m--) {
            for (i = 1; i <= m + 1; i++) {
                # if i sits in the last hole, then the last pigeon in another
                lits = ""; hints = ""
                for (j = 1; j <= m; j++) { lits = lits " " x[m, i, j]; hints = hints " " left[m, i, j] }
                hints = hints " " sits[m + 1, i] " " apart[m + 1, i, m + 2, m + 1]
                for (j = 1; j <= m; j++) hints = hints " " both[m, i, j]
                sits[m, i] = line("c", lits, hints " " sits[m + 1, m + 2])
            }
            for (j = 1; j <= m; j++)
                for (i = 1; i <= m + 1; i++)
                    for (k = i + 1; k <= m + 1; k++) {
                        # if i sits in hole j of m + 1, then k and the last pigeon do not
                        lits = " -" x[m, i, j] " -" x[m, k, j]
                        p = line("c", lits " -" x[m + 1, i, j], " " apart[m + 1, i, k, j] " " apart[m + 1, i, m + 2, j] " " second[m, k, j])
                        q = line("c", lits " -" x[m + 1, k, j], " " apart[m + 1, k, m + 2, j] " " second[m, i, j] " " p)
                        apart[m, i, k, j] = line("c", lits, " " p " " q " " first[m, i, j] " " first[m, k, j] " " apart[m + 1, i, k, m + 1])
                    }
        }
        line("c", "", " " sits[1, 1] " " sits[1, 2] " " apart[1, 1, 2, 1])
        print "end " id
    }'
}

# Prints the time and the memory of the commands in the file input, on a log of so many clauses and bytes.
measure() {
    local begin end
    begin=$(date +%s.%N)
    /usr/bin/time -f %M -o memory "$top/nusat" <input >answer 2>refusals
    end=$(date +%s.%N)
    held=$(tail -n 1 memory)
    awk -v name="$1" -v lines="$2" -v b="$3" -v t0="$begin" -v t1="$end" -v held="$held" -v base="${base:-$held}" 'BEGIN {
        t = t1 - t0
        printf "%-6s %9d %10d %9.3f %12s %12s\n", name, lines, b, t, b ? sprintf("%.0f", b / t) : "-", lines ? sprintf("%.0f", (held - base) * 1024 / lines) : "-"
    }'
}

check() {
    "write_$1" "$2" >solver.log
    local clauses originals
    clauses=$(grep -c '^[0-9]' solver.log)
    originals=$(grep -c '^[0-9]* o' solver.log)
    echo "check_log solver.log" >input
    measure "$1" "$clauses" "$(wc -c <solver.log)"
    if [ "$(cat answer)" != "-- the log is accepted, originals: $originals, lines: $((clauses - originals))" ]; then
        echo "bench/check_log.sh: unexpected answer: $(cat answer refusals)" >&2
        exit 1
    fi
}

# Builds the program, so that no line has the time of that.
"$top/nusat" </dev/null

printf '%-6s %9s %10s %9s %12s %12s\n' log clauses bytes seconds bytes/second bytes/clause
: >input
measure none 0 0
base=$held
for variables in 25000 50000 100000 200000 400000; do check chain "$variables"; done
for holes in 5 10 15 20 25; do check holes "$holes"; done
