#!/bin/sh
# Times `secomp compile` on texts of 64 KiB, 256 KiB and 1 MiB, and `tcc -c`, `clang -O0 -c` and `gcc -O0 -c` on the
# same functions. They have a loop, a branch, an array and a call each, and stand in 31 compartments, so that each
# one's code fits.
# Usage: bench/compile.sh [PROGRAM]. PROGRAM is a built secomp (by default what ./secomp runs).
# It prints, for each text and compiler, the seconds of the fastest of three runs, MB/s, and the most memory in MiB.
set -e
top=$(cd "$(dirname "$0")/.." && pwd)
program=${1:-$top/secomp}
work=$(mktemp -d)
trap 'rm -rf "$work"' EXIT
. "$top/bench/texts.sh"

for size in 65536 262144 1048576; do
    text $size > "$work/text.c"
    bytes=$(wc -c < "$work/text.c")
    tell secomp "$bytes" "$program" compile
    tell tcc "$bytes" tcc -w -c -o "$work/object" "$work/text.c"
    tell "clang -O0" "$bytes" clang -w -O0 -c -o "$work/object" "$work/text.c"
    tell "gcc -O0" "$bytes" gcc -w -O0 -c -o "$work/object" "$work/text.c"
done
