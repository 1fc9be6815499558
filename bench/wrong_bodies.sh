#!/bin/sh
# Tries the wrong bodies that the gate doesn't read: those of bench/wrong_bodies/CRATE, each of which the check of its crate must refuse.
#
#     sh bench/wrong_bodies.sh [CRATE]
#
# It works on a copy of the repository with what was proved before, puts each file into that crate's must-fail there, and leaves the
# repository as it is. A line `NOT REFUSED` is a contract to strengthen. It ends with 1 where a crate's edits didn't all pass.
set -u
here=$(cd "$(dirname "$0")/.." && pwd)
copy=$(mktemp -d)
trap 'rm -rf "$copy"' EXIT
cp -r "$here/crates" "$here/crates.txt" "$here/HANDLES" "$copy/"
status=0
if [ $# -gt 0 ]; then names=$1; else names=$(ls "$here/bench/wrong_bodies"); fi
for name in $names; do
    if [ ! -d "$here/bench/wrong_bodies/$name" ]; then
        echo "no wrong bodies of $name" >&2
        exit 2
    fi
    rm -f "$copy/crates/$name/must-fail"/*.edit
    mkdir -p "$copy/crates/$name/must-fail"
    cp "$here/bench/wrong_bodies/$name"/*.edit "$copy/crates/$name/must-fail/"
    (cd "$copy" && rt must-fail "$name") || status=1
done
exit $status
