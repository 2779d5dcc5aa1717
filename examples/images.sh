#!/usr/bin/env bash
# Makes an image of a small heap, shows it, damages it, shows where, and opens it: images.sh [PROGRAM]
# Without PROGRAM it is the one that the tools find.
set -u
program=${1:-$(python3 -B "$(dirname "$0")/../tools/program.py")} || exit
folder=$(mktemp -d)
trap 'rm -rf "$folder"' EXIT
image=$folder/cycle.image
"$program" image < "$(dirname "$0")/cycle.script" > "$image"
echo "an image of $(stat -c %s "$image") bytes"
"$program" inspect < "$image"

# Byte N becomes B, in octal digits.
damaged() {
    head -c "$1" "$image"
    printf "\\$2"
    tail -c +"$(($1 + 2))" "$image"
}

echo "cut after 200 bytes: $(head -c 200 "$image" | "$program" inspect)"
echo "another byte at its end: $( (cat "$image"; echo) | "$program" inspect)"
for at in 0 8 40 48 90 152; do
    echo "byte $at is 377: $(damaged "$at" 377 | "$program" inspect | head -n 1)"
done
damaged 40 377 > "$folder/bad.image"
echo "opened with that: $(echo verifyheap | "$program" open "$folder/bad.image")"
damaged 19 001 > "$folder/unfit.image"
echo "large from 16,862,216 bytes on: $("$program" inspect < "$folder/unfit.image" | tail -n 1)"
echo "opened with that: $(echo verifyheap | "$program" open "$folder/unfit.image")"
echo "opened as it was: $(echo verifyheap | "$program" open "$image")"
"$program" migrate < "$image" | cmp - "$image" && echo "the second version stays where it is migrated"
