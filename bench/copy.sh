# Sourced by other scripts of this folder.

# The crates of these names and all below them, by crates.txt.
crates_below() {
    awk -v names="$*" '
        /^[a-z]/ { at = index($0, ":"); libraries[substr($0, 1, at - 1)] = substr($0, at + 1) }
        END {
            count = split(names, queue, " ")
            for (i = 1; i <= count; i++) {
                if (!(queue[i] in libraries) || queue[i] in seen) continue
                seen[queue[i]] = 1
                print queue[i]
                more = split(libraries[queue[i]], below, " ")
                for (k = 1; k <= more; k++) queue[++count] = below[k]
            }
        }' "$top/crates.txt"
}

# Makes FOLDER a repository with copies of these crates and all below them, where a program over them can be added.
# usage: copy_crates FOLDER CRATE..
copy_crates() {
    folder=$1
    shift
    mkdir -p "$folder/crates"
    cp "$top/HANDLES" "$folder/"
    for crate in $(crates_below "$@"); do
        mkdir -p "$folder/crates/$crate"
        for part in src specs proofs; do
            rm -rf "$folder/crates/$crate/$part"
            [ ! -d "$top/crates/$crate/$part" ] || cp -r "$top/crates/$crate/$part" "$folder/crates/$crate/"
        done
        grep "^$crate:" "$top/crates.txt"
    done > "$folder/crates.txt"
}
