#!/bin/sh
# Prints the most memory that `secomp run` and `secomp exec` have on a program of 32 compartments with the largest
# globals, 458,752 bytes each, of which each compartment but `Main` stores in the first N pages: 0, 1, 16 and all
# 112.
# Usage: bench/memory.sh [PROGRAM]. PROGRAM is a built secomp (by default what ./secomp runs). An unproved build has
# other figures. `compile` shows what the image by itself takes, which `exec` has beside the machine's pages.
set -e
top=$(cd "$(dirname "$0")/.." && pwd)
program=${1:-$top/secomp}
work=$(mktemp -d)
trap 'rm -rf "$work"' EXIT
steps=16777216

# a program whose 31 compartments store once in each of $1 pages
text() {
    awk -v pages="$1" 'BEGIN {
        print "#pragma compartment Main"
        for (c = 1; c <= 31; c++) print "#pragma import W" c " f" c
        for (c = 1; c <= 31; c++) print "int f" c "(int v);"
        print "int g[114688];\nint main(void) {\n  int r = 0;"
        for (c = 1; c <= 31; c++) print "  r = f" c "(" pages ");"
        print "  return 0;\n}"
        for (c = 1; c <= 31; c++)
            print "#pragma compartment W" c "\n#pragma export f" c "\nint g[114688];\n" \
                "int f" c "(int v) {\n  int i;\n  for (i = 0; i < v; i++) {\n    g[i * 1024] = 1;\n  }\n  return 0;\n}"
    }'
}

# KiB of the most memory of a command on standard input
most() { /usr/bin/time -f %M -o "$work/most" "$program" "$@" > "$work/out"; cat "$work/most"; }

for pages in 0 1 16 112; do
    text $pages > "$work/text"
    image=$(most compile < "$work/text")
    cp "$work/out" "$work/image"
    executed=$(most exec --steps $steps < "$work/image")
    grep -q "^stop ended" "$work/out" || { echo "not a run that ended:"; tail -n 3 "$work/out"; exit 1; }
    ran=$(most run --steps $steps < "$work/text")
    echo "$pages pages of each  compile $image KiB  exec $executed KiB  run $ran KiB"
done
