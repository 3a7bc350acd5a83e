#!/bin/bash
# Parses models of growing size and of hostile shapes and prints how long each takes. It is no test:
# no time makes it fail. Only an answer that is not the wanted one does.
#
# Each time is that of the whole program, with the launcher's look at the sources; the line of 0 bytes
# is a run without a command. The models are not of the form that nusat runs so far, or there is no
# trace to run on them, so that each answer is the one that follows parsing.
set -eu
top=$(cd "$(dirname "$0")/.." && pwd)
dir=$(mktemp -d)
trap 'rm -rf "$dir"' EXIT
cd "$dir"

# So many times the same text.
times() {
    awk -v n="$1" -v part="$2" 'BEGIN { for (i = 0; i < n; i++) printf "%s", part }'
}

# Prints the time that it takes to answer, and fails if the answer is not this one.
measure() {
    local name=$1 want=$2 begin end bytes
    bytes=$(wc -c <model.smv)
    begin=$(date +%s.%N)
    "$top/nusat" model.smv <input 2>answer
    end=$(date +%s.%N)
    awk -v name="$name" -v b="$bytes" -v t0="$begin" -v t1="$end" 'BEGIN {
        t = t1 - t0
        printf "%-34s %9d %9.3f %12s\n", name, b, t, b ? sprintf("%.3f", t * 1048576 / b) : "-"
    }'
    if [ "$(cat answer)" != "$want" ]; then
        echo "bench/parse.sh: $name: unexpected answer: $(head -c 200 answer)" >&2
        exit 1
    fi
}

sections() {
    awk -v n="$1" 'BEGIN {
        print "MODULE main"
        for (i = 0; i < n; i++) {
            printf "VAR x%d : {a, b, -3}; y%d : unsigned word[8];\n", i, i
            printf "ASSIGN init(x%d) := a; next(x%d) := case y%d = 0ud8_%d : b; TRUE : x%d; esac;\n", i, i, i, i % 256, i
            printf "DEFINE d%d := (x%d in {a, b}) -> !(y%d[3:0] :: 0ub2_10 = 0uh6_2a) & TRUE;\n", i, i, i
            printf "LTLSPEC G (d%d -> F x%d = a) | (x%d = b U d%d)\n", i, i, i, i
        }
    }' >model.smv
    measure "sections, $1 times" "error 899: not built yet"
}

# A hostile shape: its name, the wanted answer, a front, how often a part comes, and an end.
shape() {
    { printf '%s' "$3"; times "$4" "$5"; printf '%s' "${6-}"; } >model.smv
    measure "$1" "$2"
}

# Builds the program, so that no line has the time of that.
"$top/nusat" </dev/null

printf '%-34s %9s %9s %12s\n' shape bytes seconds seconds/MiB
: >model.smv
: >input
measure nothing ""
echo "execute_text_trace states.trace" >input
for count in 1000 2000 4000 8000 13000; do sections "$count"; done
built="error 899: not built yet"
plain="error 646: states.trace: no such file"
deep="nested too deep"
shape "brackets, open" "error 106: 1:1018: $deep" "MODULE main INIT " 1000000 "("
shape "brackets, open, of a formula" "error 106: 1:1021: $deep" "MODULE main LTLSPEC " 1000000 "("
shape "brackets, open, before an X" "error 106: 1:1021: $deep" "MODULE main LTLSPEC " 1000000 "(" " X x"
shape "brackets, one after the other" "$built" "MODULE main INIT {x" 500000 ",(x)" "}"
shape "formulas, each with brackets" "$built" "MODULE main" 200000 " LTLSPEC (X x)"
shape "not signs" "error 106: 1:1018: $deep" "MODULE main INIT " 1000000 "!"
shape "minus signs, a comment" "error 105: 1:1000018: unexpected end" "MODULE main INIT " 1000000 "-"
shape "a comment" "$plain" "MODULE main --" 4000000 "c"
shape "a name" "error 111: 1:8: name longer than 255 bytes" "MODULE " 4000000 "n"
shape "a sum" "error 106: 1:2018: $deep" "MODULE main INIT x" 100000 "+x"
shape "a chain of arrows" "error 106: 1:5023: $deep" "MODULE main INIT x" 100000 " -> x"
shape "a chain of arrows of formulas" "error 106: 1:7021: $deep" "MODULE main LTLSPEC X x" 100000 " -> X x"
shape "branches of a case" "$built" "MODULE main INIT case " 200000 "x : y; " "esac"
shape "a path" "$built" "MODULE main INIT x" 1000000 ".x"
shape "a number" "error 103: 1:18: number out of range" "MODULE main INIT " 4000000 "9"
shape "digits of a word" "error 102: 1:18: bad word constant" "MODULE main INIT 0ub_" 4000000 "1"
shape "blanks" "$plain" "MODULE main" 4000000 " "
