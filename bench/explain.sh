#!/bin/sh
# Times `secomp explain` on texts whose chains have 0, 1, 8 and 31 links, against its parts: `run` on the text, and
# `meaning` on each text of the chain, with as many turns as the machine may take steps and as many events as it
# emitted. In each text `Main` runs 620,000 rounds of a loop, in as many parts as the chain has texts, and after
# each but the last calls a compartment that stores past the end of an array. Then it prints the most memory of
# `explain` at two numbers of steps, on a text whose `Main` loops for ever once it has called such a compartment.
# Usage: bench/explain.sh [PROGRAM]. PROGRAM is a built secomp (by default what ./secomp runs). An unproved build is
# some thousand times slower. Each time is the fastest of three runs; the ratio is that of `explain` to 1.2 times
# `run` and all `meaning`s.
set -e
top=$(cd "$(dirname "$0")/.." && pwd)
program=${1:-$top/secomp}
work=$(mktemp -d)
trap 'rm -rf "$work"' EXIT
steps=16777216

# a program with $1 links, whose loops have $2 rounds in all; 0 rounds: it loops for ever at its end
text() {
    awk -v links="$1" -v rounds="$2" 'BEGIN {
        print "#pragma compartment Main"
        for (c = 1; c <= links; c++) print "#pragma import W" c " f" c
        print "#pragma import Env output\nvoid output(int v);"
        for (c = 1; c <= links; c++) print "int f" c "(int v);"
        print "int main(void) {\n  int i;\n  int r = 0;"
        for (c = 1; c <= links + 1; c++) {
            print "  for (i = 0; i < " int(rounds / (links + 1)) "; i++) {\n    r = r ^ i;\n  }"
            if (c <= links) print "  r = f" c "(r);"
        }
        if (!rounds) print "  while (1) {\n    r = r ^ i;\n  }"
        print "  output(r);\n  return 0;\n}"
        for (c = 1; c <= links; c++)
            print "#pragma compartment W" c "\n#pragma export f" c "\nint x[2];\nint y;\n" \
                "int f" c "(int v) {\n  x[2] = v;\n  return y;\n}"
    }'
}

now() { date +%s%N; }

# seconds of the fastest of three runs of a command
best() {
    least=
    for run in 1 2 3; do
        start=$(now)
        "$@"
        spent=$(($(now) - start))
        if [ -z "$least" ] || [ "$spent" -lt "$least" ]; then least=$spent; fi
    done
    awk "BEGIN { print $least / 1e9 }"
}

explain() { "$program" explain --steps $steps --events 4096 < "$work/text" > "$work/report"; }
run_it() { "$program" run --steps $steps --events 4096 < "$work/text" > "$work/shown"; }
meanings() {
    for count in $(seq 0 "$links"); do
        "$program" meaning --turns $steps --events "$events" < "$work/text$count" > "$work/meant"
    done
}

for links in 0 1 8 31; do
    text $links 620000 > "$work/text"
    explain
    grep -qx "chain $links" "$work/report" || { echo "not a chain of $links links:"; tail -n 3 "$work/report"; exit 1; }
    events=$(sed '/^stop /,$d' "$work/report" | wc -l)
    for count in $(seq 0 $links); do
        "$program" explain --steps $steps --events 4096 --show "$count" < "$work/text" > "$work/text$count"
    done
    whole=$(best explain)
    machine=$(best run_it)
    meant=$(best meanings)
    awk "BEGIN { ratio = $whole / (1.2 * $machine + $meant)
        printf \"%2d links  explain %6.2f s  run %5.2f s  meanings %6.2f s  ratio %.2f\\n\",
            $links, $whole, $machine, $meant, ratio }"
done

text 1 0 > "$work/text"
for count in 1000000 16000000; do
    /usr/bin/time -f "$count steps  %e s  %M KiB" "$program" explain --steps $count < "$work/text" 2>&1 > "$work/report"
done
