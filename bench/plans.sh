#!/bin/sh
# Counts the instructions and the memory of `advice plan` on the 40 km line of the examples, by steps of 1,000 and of 100 m, with few and with many
# splits, and prints energy and bound. Needs rt, valgrind and /usr/bin/time.
set -eu
. "$(dirname "$0")/program.sh"

line=$top/examples/40km
for case in "1000 2000" "1000 10000" "100 2000" "100 50000"; do
    set -- $case
    figures=$(measured plan "$line/line.csv" "$line/train.toml" "$line/service.csv" --step "$1" --splits "$2")
    echo "step $1, $2 splits: $figures"
    "$built" plan "$line/line.csv" "$line/train.toml" "$line/service.csv" --step "$1" --splits "$2" | sed -n '2,3p;5p' || true
done
