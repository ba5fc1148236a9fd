#!/usr/bin/env bash
# Times what everything rests on: validation, search, the digest, look-ups and changes of lists and maps, hash tables, beside the
# same work in plain Rust and Debian's xxHash (where rustc, cc and libxxhash are there), one after another on this machine.
#
#     bench/kernels.sh [PROGRAM]
#
# PROGRAM is one that times the same work with the crate zerovec, by the names that bench/lists.txt, tables.txt, changes.txt and
# hashes.txt print; its checksums are the same where it makes the same lists. What it prints of parse_text is the validation of
# 10,000 texts.
#
# First it times the program `zv`, where it is built. The timing programs (ranges.txt, records.txt, lists.txt, tables.txt,
# changes.txt, timing.txt, hashes.txt, freezes.txt, frames.txt, json_forms.txt) are Rattle crates that are no part of the gate. They are proved
# and built in bench/out, a copy of the sources with the libraries that the tree has built (`.ci/run`, `./zv --prove` and `rt lib`
# leave them), and stay there: what didn't change is not built again. Each is run as soon as it is built.
set -euo pipefail
top=$(cd "$(dirname "$0")/.." && pwd)
copy=$top/bench/out

say() {
    echo "kernels.sh: $* ($((SECONDS / 60)) min $((SECONDS % 60)) s)" >&2
}

# The sources anew, and each library that the tree has built from them, by `rt lib` or in the gate.
copy_tree() {
    mkdir -p "$copy"
    rm -rf "$copy"/crates/*/{src,specs,proofs}
    (cd "$top" && git ls-files -z -- crates crates.txt HANDLES | xargs -0 cp --parents -t "$copy")
    local of_gate=()
    for rlib in "$top"/crates/*/out/rlib; do
        crate=$(dirname "$(dirname "$rlib")")
        kept=$copy/crates/$(basename "$crate")/out/rlib
        if [ -f "$rlib/stamp" ]; then
            if cmp -s "$rlib/stamp" "$kept/stamp"; then continue; fi
        elif [ -n "$(find "$crate"/{src,specs,proofs} -newer "$rlib" -print -quit 2> /dev/null)" ]; then
            continue
        else
            of_gate+=("$(dirname "$(dirname "$kept")")")
        fi
        rm -rf "$kept"
        mkdir -p "$(dirname "$kept")"
        cp -rl "$rlib" "$kept"
    done
    [ -d "$copy/.git" ] || git init -q "$copy"
    if [ ${#of_gate[@]} -gt 0 ]; then
        "$top/bench/mark_built.py" "$copy" "${of_gate[@]}"
    fi
}

# Proves and builds a timing program over the libraries that it names, and runs it.
build() {
    local folder=$copy/crates/zv_$1
    say "zv_$1: proves and builds what isn't kept, and then runs"
    mkdir -p "$folder/src" "$folder/specs"
    cp "$top/bench/$1.txt" "$folder/src/main.rt"
    : > "$folder/specs/Lib.antt"
    echo "zv_$1: anyhow $2" >> "$copy/crates.txt"
    (cd "$folder" && rt run 2> "$copy/log" < /dev/null) || { cat "$copy/log" >&2; exit 1; }
}

beside() {
    if [ -n "$1" ]; then echo "-- zerovec"; "$1" parse_text text16 map hash_; fi
    if [ -x "$copy/reference" ]; then echo "-- plain Rust over std"; "$copy/reference"; fi
    if [ -x "$copy/digest" ]; then echo "-- xxHash's own library"; "$copy/digest"; fi
}

if [ -x "$top/crates/zv/out/zv" ]; then
    say "times the built program"
    python3 -u "$top/bench/program.py" 1 || say "bench/program.py needs GNU time, Debian's package time"
fi
say "copies the sources into $copy, with the libraries that are kept"
copy_tree
if command -v rustc > /dev/null; then
    rustc -O -C target-cpu=x86-64-v2 "$top/bench/reference.rs" -o "$copy/reference"
fi
if command -v cc > /dev/null && cc -O2 "$top/bench/digest.c" -lxxhash -o "$copy/digest" 2> /dev/null; then :; fi

echo "-- this repository"
build ranges 'zv_props zv_ule'
build records 'zv_multi zv_owned zv_ule'
build lists 'zv_map1 zv_owned zv_ule'
build tables 'zv_map2d zv_map1 zv_ule'
build changes 'zv_map2d zv_owned zv_ule'
build timing 'zv_var zv_ule zv_fixed zv_xxhash'
build hashes 'zv_hashmap zv_hash zv_ule'
build frames 'zv_framed zv_map1 zv_owned zv_fixed zv_var zv_ule'
build freezes 'zv_frozen zv_hashmap zv_map2d zv_map zv_ule'
build json_forms 'zv_forms zv_map1 zv_fixed zv_ule serde_json'
beside "${1-}"
say "all once more"
echo "-- this repository"
for name in ranges records lists tables changes timing hashes frames freezes json_forms; do
    "$copy/crates/zv_$name/out/zv_$name"
done
beside "${1-}"
