#!/usr/bin/env bash
# Tries the wrong bodies of crates/NAME/wrong/*.edit: the prover must refuse each.
#
#   bench/wrong.sh [CRATE..]     these crates, or all that have such a folder
#
# They have the form of the edits in must-fail/, which the gate tries too; these it doesn't. Run this
# before a crate's contracts change, and after. It works on a copy in a temporary folder, begins with
# what `rt check` kept, and takes 5 to 60 seconds an edit. The status is 1 where an edit is proved,
# can't be applied or was not tried.
set -euo pipefail

usage() {
    sed -n '2,9s/^# \{0,1\}//p' "$0"
    exit "$1"
}

case "${1-}" in
    -h | --help) usage 0 ;;
    -*) usage 2 ;;
esac
top=$(git -C "$(dirname "$0")" rev-parse --show-toplevel)
cd "$top"

names=("$@")
if [ ${#names[@]} -eq 0 ]; then
    for folder in crates/*/wrong; do
        if [ -d "$folder" ]; then
            names+=("$(basename "$(dirname "$folder")")")
        fi
    done
fi
for name in "${names[@]}"; do
    if ! compgen -G "crates/$name/wrong/*.edit" > /dev/null; then
        echo "bench/wrong.sh: crates/$name/wrong/ has no .edit file" >&2
        exit 2
    fi
done

copy=$(mktemp -d)
trap 'rm -rf "$copy"' EXIT
tar -cf - --exclude='crates/*/out' crates crates.txt HANDLES | tar -xf - -C "$copy"
git -C "$copy" init -q

failed=0
for name in "${names[@]}"; do
    folder=$copy/crates/$name
    rm -rf "$folder/must-fail"
    mkdir "$folder/must-fail"
    cp "crates/$name/wrong/"*.edit "$folder/must-fail/"
    (cd "$folder" && rt check --jobs 1 > "$copy/check.log" 2>&1) || { tail -n 20 "$copy/check.log"; exit 1; }
    log=$copy/$name.log
    (cd "$copy" && rt must-fail "$name") 2>&1 | tee "$log" || true
    tried=$(ls "crates/$name/wrong/"*.edit | wc -l)
    refused=$(grep -c ': refused, as it must be' "$log" || true)
    echo "$name: $refused of $tried wrong bodies refused"
    if [ "$refused" -ne "$tried" ]; then
        failed=1
    fi
done
exit "$failed"
