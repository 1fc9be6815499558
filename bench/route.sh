#!/bin/sh
# Counts the instructions and the memory of `advice route` on routes of 400 and of 4,000 steps. Needs rt, valgrind, awk and /usr/bin/time.
set -eu
. "$(dirname "$0")/program.sh"
. "$(dirname "$0")/random_route.sh"

for n in 400 4000; do
    random_route "$n" >"$work/$n.route"
    figures=$(measured route "$work/$n.route")
    echo "$n steps: $figures, $(wc -c <"$work/$n.route") bytes in"
done
