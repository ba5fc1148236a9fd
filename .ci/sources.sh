# What the program `zv` is built from. Sourced by `zv` and by .ci/run, with $top set.

# The lines of crates.txt of `zv` and of the crates below it, the lowest first.
lines_of_zv() {
    awk -F: '
        function visit(name, words, count, i) {
            if (!(name in below) || seen[name]++) return
            count = split(below[name], words, " ")
            for (i = 1; i <= count; i++) visit(words[i])
            print line[name]
        }
        { split($1, words, " "); below[words[1]] = $2; line[words[1]] = $0 }
        END { visit("zv") }
    ' "$top/crates.txt"
}

# The names of these crates.
crates_of_zv() {
    lines_of_zv | sed 's/[ :].*//'
}

# A checksum of these lines and of the crates' sources: code, definitions and proofs.
sum_of_zv() {
    local folders
    mapfile -t folders < <(crates_of_zv | sed 's|^|crates/|')
    (
        cd "$top" || exit
        lines_of_zv
        find "${folders[@]}" -name out -prune -o -type f \( -name '*.rt' -o -name '*.antt' \) -print0 |
            LC_ALL=C sort -z | xargs -0 sha256sum
    ) | sha256sum
}

# Where the checksum is kept of the sources that the program was proved and built from.
mark=$top/crates/zv/out/zv.sources

# Marks the program as built from the sources with the checksum $1, unless they were changed meanwhile.
mark_built() {
    if [ -x "${mark%.sources}" ] && [ "$(sum_of_zv)" = "$1" ]; then
        echo "$1" >"$mark"
    fi
}

# Whether the program is there and was built from the sources as they stand.
is_built() {
    [ -x "${mark%.sources}" ] && [ -r "$mark" ] && [ "$(cat "$mark")" = "$(sum_of_zv)" ]
}
