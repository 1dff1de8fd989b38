#!/bin/sh
# Times `secomp explain --show 32` on a program of 32 compartments for which the machine emits 4,096 events. Each
# compartment commits undefined behaviour in its first call, so each one's section is replaced by a text that
# performs its part of all events.
# Usage: bench/replace.sh [PROGRAM [FOLDER]]. PROGRAM is a built secomp (by default what ./secomp runs).
# FOLDER (by default a new one) gets a copy of the crates and a program over them, which is proved and built there;
# where it has bench_replace, that program is taken.
# It prints the seconds of the fastest of three runs and the most memory in MiB: of `run`, which replaces nothing,
# and of `explain --show 32`, which makes 32 texts in turn, of 1 to 32 sections that are replaced, and runs the
# meaning of each; and the bytes of both texts. Then those of one replacement by itself, by all 32 compartments, and
# by none, which reads and runs the same and leaves the text as it is.
set -e
top=$(cd "$(dirname "$0")/.." && pwd)
program=${1:-$top/secomp}
work=$(mktemp -d)
trap 'rm -rf "$work"' EXIT
folder=${2:-$work}

# 66 rounds of 31 calls and returns, three outputs and the end
awk 'BEGIN {
    print "#pragma compartment Main"
    for (c = 1; c <= 31; c++) print "#pragma import C" c " f" c
    print "#pragma import Env output"
    print "void output(int v);"
    for (c = 1; c <= 31; c++) print "int f" c "(int v);"
    print "int x[2];\nint y;\nint main(void) {\n  int i;\n  x[2] = 5;\n  for (i = 0; i < 66; i++) {"
    for (c = 1; c <= 31; c++) print "    f" c "(i);"
    print "  }\n  output(1);\n  output(2);\n  output(y);\n  return 0;\n}"
    for (c = 1; c <= 31; c++) {
        print "#pragma compartment C" c "\n#pragma export f" c "\nint x[2];\nint y;"
        print "int f" c "(int v) {\n  x[2] = v;\n  return y;\n}"
    }
}' > "$work/text.c"

# what a command takes, and the lines that it writes
tell() {
    name=$1; shift
    for run in 1 2 3; do
        /usr/bin/time -f "%e %M" -o "$work/spent" "$program" "$@" --events 4096 --steps 1000000 \
            < "$work/text.c" > "$work/told"
        cat "$work/spent"
    done | sort -n | head -1 | awk -v name="$name" '{ printf "%-20s %6.2f s  %6.1f MiB\n", name, $1, $2 / 1024 }'
}

tell "run" run
awk '/^stop/ { print NR - 1 " events" }' "$work/told"
tell "explain" explain
grep '^chain' "$work/told"
tell "explain --show 32" explain --show 32
echo "$(wc -c < "$work/text.c") bytes, replaced $(wc -c < "$work/told") bytes"

# one replacement by itself
if [ ! -x "$folder/bench_replace" ]; then
    . "$top/bench/copy.sh"
    copy_crates "$folder" sc_chain second_meaning
    echo "bench_replace: sc_event sc_types sc_compile sc_store sc_machine sc_chain second_meaning" \
        >> "$folder/crates.txt"
    mkdir -p "$folder/crates/bench_replace/src"
    cp "$top/bench/replace_main.txt" "$folder/crates/bench_replace/src/main.rt"
    (cd "$folder/crates/bench_replace" && rt run < /dev/null > "$folder/log" 2>&1) || { tail "$folder/log"; exit 1; }
    cp "$folder/crates/bench_replace/out/bench_replace" "$folder/bench_replace"
fi
for none in "" none; do
    for run in 1 2 3; do
        /usr/bin/time -f %M -o "$work/spent" "$folder/bench_replace" $none < "$work/text.c" > "$work/told"
        echo "$(cat "$work/told") $(cat "$work/spent")"
    done | sort -k3,3n | head -1 | awk -v name="replaced $none" '
        { printf "%-20s %6.4f s  %6.1f MiB, %d events, %d bytes\n", name, $3 / 1e9, $4 / 1024, $1, $2 }'
done
