# For the benchmarks of `check` and `compile`: texts of small functions, and what a command takes on one. $work is a
# folder.

# a program of at most $1 bytes
text() {
    awk -v most="$1" 'BEGIN {
        size = 0; n = 0
        for (c = 1; c <= 31; c++) {
            size = out(size, "#pragma compartment " (c < 31 ? "W" c : "Main") "\nint table" c "[16];\n")
            size = out(size, "int f" n "(int a, int b) {\n  return a + b;\n}\n")
            for (n++; size < most * c / 31 - 400; n++) {
                size = out(size, "int f" n "(int a, int b) {\n  int i;\n  int sum = 0;\n" \
                    "  for (i = 0; i < b; i++) {\n    sum = sum + a * i;\n    if (sum > 1000 && i != 7) {\n" \
                    "      table" c "[i & 15] = sum - table" c "[a & 15];\n    }\n  }\n" \
                    "  sum = f" (n - 1) "(sum, i);\n  return sum;\n}\n")
            }
        }
        out(size, "int main(void) {\n  int r;\n  r = f" (n - 1) "(1, 2);\n  return r;\n}\n")
    }
    function out(size, part) { printf "%s", part; return size + length(part) }'
}

# what a command takes: its name, the bytes of its text, and the command
tell() {
    name=$1; bytes=$2; shift 2
    command -v "$1" > /dev/null || { echo "$name: not installed"; return; }
    for run in 1 2 3; do
        /usr/bin/time -f "%e %M" -o "$work/spent" "$@" > "$work/image" 2> "$work/told" < "$work/text.c" ||
            { cat "$work/told"; return; }
        cat "$work/spent"
    done | sort -n | head -1 | awk -v name="$name" -v bytes="$bytes" \
        '{ printf "%8d bytes  %-10s %6.2f s  %7.2f MB/s  %6.1f MiB\n",
            bytes, name, $1, bytes / 1e6 / ($1 ? $1 : 0.005), $2 / 1024 }'
}
