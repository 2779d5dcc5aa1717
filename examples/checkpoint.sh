#!/usr/bin/env bash
# Saves the heap of a server once, asks its image, and lets two scripts go on from it: checkpoint.sh [PROGRAM]
# Without PROGRAM it is the one that the tools find.
set -u
program=${1:-$(python3 -B "$(dirname "$0")/../tools/program.py")} || exit
folder=$(mktemp -d)
trap 'rm -rf "$folder"' EXIT
image=$folder/server.image
sed '/^t1 fetch l0 h0/,$d' "$(dirname "$0")/leak.script" | "$program" image > "$image"

# What the lines of standard input are answered, from the state on that the image says.
from_image() {
    "$program" open "$@" "$image"
}

for question in 'dumpheap -stat' 'gcroot 0000000010008ba8' 'retained 0000000010001020'; do
    echo "> $question"
    echo "$question" | from_image
done
echo "the server gets a new cache, and a collection compacts:"
from_image << END
t1 fetch l0 h0
t1 new l1 Cache 256
t1 set l0 0 l1
t1 collect 2
dumpheap -stat
END
echo "its handle is freed, and a collection sweeps:"
from_image --compact 99 << END
t1 free h0
t1 collect 2
dumpheap -stat
END
echo "the image is as it was:"
echo "dumpheap -stat" | from_image
