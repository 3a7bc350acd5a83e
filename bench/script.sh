#!/bin/bash
# Runs scripts of growing length and prints how long each takes. It is no test: no time makes it fail. Only an
# answer that is not the wanted one does.
#
# The lines set a variable, echo two of them, and make and use an alias, in turn. Each time is that of the
# whole program, with the launcher's look at the sources; the line of 0 is a run of an empty script. The other
# two times are of listings: as many variables, and one history of all lines, from the input.
set -eu
top=$(cd "$(dirname "$0")/.." && pwd)
dir=$(mktemp -d)
trap 'rm -rf "$dir"' EXIT
cd "$dir"

# on first use the launcher builds the program, and says so
"$top/nusat" < /dev/null

write_lines() {
    awk -v n="$1" 'BEGIN {
        for (k = 1; k <= n; k++) {
            if (k % 4 == 1) print "set v" k % 100 " " k
            else if (k % 4 == 2) print "echo $v" (k - 1) % 100 " \"a;b\" # " k
            else if (k % 4 == 3) print "alias e" k % 100 " echo -n"
            else print "e" (k - 1) % 100 " " k "; echo"
        }
    }'
}

run() {
    local begin end
    begin=$(date +%s.%N)
    "$top/nusat" "${@:2}" > said 2> refused
    end=$(date +%s.%N)
    [ ! -s refused ] || { head -3 refused; exit 1; }
    awk -v what="$1" -v a="$begin" -v b="$end" 'BEGIN { printf "%-28s %8.2f s\n", what, b - a }'
}

for lines in 0 25000 50000 100000; do
    write_lines "$lines" > script
    run "script of $lines lines" -source script < /dev/null
    [ "$(wc -l < said)" -eq $((lines / 2)) ] || { echo "not the wanted lines"; exit 1; }
done

for count in 25000 50000 100000; do
    awk -v n="$count" 'BEGIN { for (k = 1; k <= n; k++) print "set w" k " " k; print "set" }' > lines
    run "listing of $count variables" < lines
    [ "$(wc -l < said)" -eq $((count + 6)) ] || { echo "not the wanted lines"; exit 1; }
done

{ write_lines 10000; echo history; } > lines
run "history of 10000 lines" < lines
