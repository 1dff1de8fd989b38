#!/bin/sh
# Times the lowering of texts of 64 KiB, 256 KiB and 1 MiB, the longest that are read, to three-address code. They
# have small functions, each with a loop, a branch, an array and a call.
# Usage: bench/lowering.sh [FOLDER]. FOLDER (by default a new one) gets a copy of the crates and a program over
# them, which is proved and built there; that takes long the first time.
# It prints, for each text, its nodes, the seconds of the fastest of three runs, nodes per second, and the most
# memory that the program had, which holds the text and its typed program too.
set -e
top=$(cd "$(dirname "$0")/.." && pwd)
work=${1:-$(mktemp -d)}
. "$top/bench/copy.sh"
copy_crates "$work" sc_types sc_lower
echo "bench_lowering: sc_types sc_tac sc_lower" >> "$work/crates.txt"
mkdir -p "$work/crates/bench_lowering/src"
cp "$top/bench/lowering_main.txt" "$work/crates/bench_lowering/src/main.rt"
(cd "$work/crates/bench_lowering" && rt run < /dev/null > "$work/log" 2>&1) || { tail "$work/log"; exit 1; }

# a program of at most $1 bytes
text() {
    awk -v most="$1" 'BEGIN {
        size = out(0, "#pragma compartment Main\nint table[16];\nint f0(int a, int b) {\n  return a + b;\n}\n")
        for (n = 1; size < most - 400; n++) {
            size = out(size, "int f" n "(int a, int b) {\n  int i;\n  int sum = 0;\n" \
                "  for (i = 0; i < b; i++) {\n    sum = sum + a * i;\n    if (sum > 1000 && i != 7) {\n" \
                "      table[i & 15] = sum - table[a & 15];\n    }\n  }\n" \
                "  sum = f" (n - 1) "(sum, i);\n  return sum;\n}\n")
        }
        out(size, "int main(void) {\n  int r;\n  r = f" (n - 1) "(1, 2);\n  return r;\n}\n")
    }
    function out(size, part) { printf "%s", part; return size + length(part) }'
}

for size in 65536 262144 1048576; do
    text $size > "$work/text"
    for run in 1 2 3; do
        /usr/bin/time -f %M -o "$work/memory" "$work/crates/bench_lowering/out/bench_lowering" \
            < "$work/text" > "$work/told"
        echo "$(cat "$work/told") $(cat "$work/memory")"
    done | sort -k3,3n | head -1 |
        awk '{ printf "%7d bytes  %7d nodes  %.4f s  %.2f million nodes/s  %d KiB\n",
            $1, $2, $3 / 1e9, $2 / $3 * 1e3, $4 }'
done
