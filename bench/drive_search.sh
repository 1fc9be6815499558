#!/bin/sh
# The energies that the drive search finds on known lines, and its instructions. Needs rt, awk and valgrind.
#
# It builds a small program that reads a line, a train and a service, finds the best of the family and then searches from it, and prints
# both energies. Each energy is held against the most that is allowed. The instructions are those of the search alone: the count
# of the program that stops after the family is taken off.
set -eu
. "$(dirname "$0")/search_program.sh"

forty() { # the 40 km line
    cp "$top/examples/40km/line.csv" "$top/examples/40km/service.csv" .
}
failed=0
held() { # the energy at this step is at most this much, in 1e15 half microjoules
    what=$1 step=$2 most=$3
    energy=$(searched "$step" search | awk '{ print $4 }')
    awk -v e="$energy" -v m="$most" -v w="$what, step $step" 'BEGIN {
        ok = e / 1e15 <= m
        printf "%-40s %.5f (at most %s) %s\n", w, e / 1e15, m, ok ? "ok" : "TOO MUCH"
        exit !ok }' || failed=$((failed + 1))
}

cd "$work/run"
forty
held "40 km" 1000 1.0200
held "40 km" 200 0.9140
held "40 km" 100 0.9080
sample 1
held "sample 1" 1000 0.6964
held "sample 1" 100 0.6385
sample 2
held "sample 2" 100 0.6210
timed_sample 1
held "sample 1, four latest times" 1000 0.8190
held "sample 1, four latest times" 100 0.6680
for step in 100 10; do
    without=$(files | counted "$step" family)
    with=$(files | counted "$step" search)
    files | /usr/bin/time -f %M -o "$work/memory" "$program" "$step" search >/dev/null
    echo "sample 1, four latest times, step $step: $((with - without)) instructions of the search, $(tail -1 "$work/memory") kB in all"
done
exit "$failed"
