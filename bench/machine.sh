#!/bin/sh
# Times the machine, over pages and over flat memory, on three endless loops of 16,777,216 steps and on one of 1,048,576
# calls of another compartment, and qemu-riscv32 on the first three where it is installed.
# Usage: bench/machine.sh [FOLDER]. FOLDER (by default a new one) gets a copy of the machine's crates and two programs over
# them, which are proved and built there; that takes minutes the first time. Each store has a program of its own, as in
# one with both LLVM inlines the decoder into neither machine.
# It prints, for each loop, instructions per second of the machine over pages, which the program runs on, and over flat
# memory, the ratio of the two, instructions per second of qemu-riscv32, and the ratio of pages to that.
set -e
top=$(cd "$(dirname "$0")/.." && pwd)
work=${1:-$(mktemp -d)}
. "$top/bench/copy.sh"
copy_crates "$work" sc_machine
for store in paged flat; do
    echo "bench_$store: sc_store sc_image sc_machine" >> "$work/crates.txt"
    mkdir -p "$work/crates/bench_$store/src"
    cp "$top/bench/machine_main.txt" "$work/crates/bench_$store/src/main.rt"
done
sed -i 's/PagedStore/FlatStore/' "$work/crates/bench_flat/src/main.rt"
for store in paged flat; do
    (cd "$work/crates/bench_$store" && rt run > "$work/log" 2>&1) || { tail "$work/log"; exit 1; }
done

# The best of three runs of each.
mkdir -p "$work/loops"
python3 "$top/bench/riscv_loops.py" "$work/loops"
for run in 1 2 3; do
    for store in paged flat; do
        "$work/crates/bench_$store/out/bench_$store" | sed "s/ / $store /"
    done
done | sort -k1,2 -k4,4n | awk '!seen[$1 " " $2]++ { printf "%s %s %.0f\n", $1, $2, $3 / $4 * 1e9 }' > "$work/machine"
: > "$work/qemu"
if command -v qemu-riscv32 > /dev/null; then
    while read -r loop count; do
        chmod +x "$work/loops/$loop"
        for run in 1 2 3; do
            start=$(date +%s%N)
            qemu-riscv32 "$work/loops/$loop"
            end=$(date +%s%N)
            echo "$loop $count $((end - start))"
        done
    done < "$work/loops/counts" | sort -k1,1 -k3,3n | awk '!seen[$1]++ { printf "%s %.0f\n", $1, $2 / $3 * 1e9 }' > "$work/qemu"
fi
awk 'FILENAME == ARGV[1] { qemu[$1] = $2; next }
     $2 == "flat" { flat[$1] = $3; next }
     { loop = $1; paged = $3
       ratio = (loop in qemu) ? sprintf("%.3f", paged / qemu[loop]) : "-"
       printf "%-9s pages %d/s  flat %d/s  ratio %.2f  qemu-riscv32 %s/s  ratio %s\n", loop, paged, flat[loop],
           paged / flat[loop], (loop in qemu) ? qemu[loop] : "-", ratio }' "$work/qemu" "$work/machine"
