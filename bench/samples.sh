#!/bin/sh
# Plans samples, as many as the first word says (the first hundred without a word), and prints for each: its number, energy and bound in 0.5
# microjoule, the gap in millionths of the energy and whether it is met, and the instructions of the run. Needs rt, valgrind and /usr/bin/time.
set -eu
. "$(dirname "$0")/program.sh"

last=${1:-100}
echo "sample energy bound gap word instructions"
number=1
while test "$number" -le "$last"; do
    figures=$(measured sample "$number")
    energy=$(sed -n 's/^energy //p' "$work/text")
    bound=$(sed -n 's/^bound //p' "$work/text")
    if test -n "$energy"; then
        gap=$(awk -v e="$energy" -v b="$bound" 'BEGIN { printf "%.0f", 1000000 * (e - b) / e }')
        echo "$number $energy $bound $gap $(sed -n 's/^gap //p' "$work/text") ${figures%% *}"
    else
        echo "$number - - - $(sed -n 2p "$work/text") ${figures%% *}"
    fi
    number=$((number + 1))
done
