#!/usr/bin/env bash
# Runs the built program over real devices that fail, and prints one line a case: what it is, the status that it wants, and
# the status that came. The status is 1 where one is another.
#
#   examples/devices.sh      after ./zv --prove
set -u
top=$(cd "$(dirname "$0")/.." && pwd)
zv=$top/crates/zv/out/zv
[ -x "$zv" ] || { echo 'examples/devices.sh: build the program first: ./zv --prove' >&2; exit 2; }
folder=$(mktemp -d) || exit 2
trap 'rm -rf "$folder"' EXIT
failed=0

# The name of a case, the status that it wants, and the one that came.
tell() {
    local mark=ok
    [ "$2" = "$3" ] || { mark=OTHER; failed=1; }
    printf '%-60s wants %s, is %s  %s\n' "$1" "$2" "$3" "$mark"
}

# Whether nothing was written to the file out.
written() {
    [ ! -s "$folder/out" ] || { echo "$1: something was written"; failed=1; }
}

# As many bytes as an input may have: the empty image and look-ups that find nothing.
limit() {
    printf 'x%064d\n' 0
    yes 'get x61 x62' 2>/dev/null | head -n 1398095
    printf 'get x x61\n'
}

image="x$(printf '%064d' 0)"
echo "$image" >"$folder/in"
printf '%s\nput x61 x62 x01\n' "$image" >"$folder/put"

"$zv" edit <"$folder/put" >/dev/full 2>/dev/null
tell 'a full disk' 7 $?
"$zv" look x61 x62 <"$folder/in" >/dev/full 2>/dev/null
tell 'a full disk, for one reply' 7 $?
"$zv" edit edit >/dev/full 2>/dev/null </dev/null
tell 'a full disk, for the usage line' 7 $?

# The reader of the pipe has ended before the program writes.
{
    sleep 1
    "$zv" edit <"$folder/put" 2>/dev/null
    echo $? >"$folder/status"
} | true
for _ in 1 2 3 4 5 6 7 8 9 10; do
    [ -s "$folder/status" ] && break
    sleep 0.3
done
tell 'a pipe that nobody reads' 7 "$(cat "$folder/status" 2>/dev/null)"

"$zv" edit <&- >"$folder/out" 2>/dev/null
tell 'no input' 2 $?
written 'no input'
"$zv" edit <"$folder" >"$folder/out" 2>/dev/null
tell 'a folder as input' 2 $?
written 'a folder as input'
"$zv" edit <"$folder/put" >&- 2>/dev/null
tell 'no output' 7 $?
"$zv" edit </dev/null >"$folder/out" 2>/dev/null
tell 'an empty input' 4 $?

limit >"$folder/limit"
tell 'bytes of the longest input' 16777216 "$(stat -c %s "$folder/limit")"
"$zv" edit <"$folder/limit" >"$folder/out" 2>/dev/null
tell 'an input of exactly the limit' 0 $?
tell 'lines of its answer' 1398097 "$(wc -l <"$folder/out")"
{ cat "$folder/limit"; echo; } >"$folder/more"
"$zv" edit <"$folder/more" >"$folder/out" 2>/dev/null
tell 'a byte more than the limit' 3 $?
written 'a byte more than the limit'
"$zv" edit </dev/zero >"$folder/out" 2>/dev/null
tell 'an input without an end' 3 $?
written 'an input without an end'
exit "$failed"
