#!/bin/sh
# Counts the instructions and the memory of `advice plan` on lines of 40 and of 400 km with a section of each kind for every
# 100 m, a train of 400 tonnes and a call every 20 km. Needs rt, valgrind, awk and /usr/bin/time.
set -eu
. "$(dirname "$0")/program.sh"
. "$(dirname "$0")/long_line.sh"

long_train >"$work/train.toml"
for n in 400 4000; do
    long_line "$n" >"$work/line.csv"
    long_service "$n" >"$work/service.csv"
    figures=$(measured plan "$work/line.csv" "$work/train.toml" "$work/service.csv")
    echo "$n sections of each kind: $figures, $(wc -c <"$work/line.csv") bytes of line"
done
