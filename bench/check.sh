#!/bin/sh
# Instructions and memory of `advice check` on the report of `advice plan` for the 40 km line of the examples, and what share they are of the
# instructions of that plan. Needs rt, python3, valgrind and /usr/bin/time; it takes up to twenty minutes.
set -eu
. "$(dirname "$0")/program.sh"

line=$top/examples/40km
for case in "1000 2000" "1000 10000" "100 50000"; do
    set -- $case
    planned=$(measured plan "$line/line.csv" "$line/train.toml" "$line/service.csv" --step "$1" --splits "$2")
    cp "$work/text" "$work/report"
    checked=$(measured check "$line/line.csv" "$line/train.toml" "$line/service.csv" "$work/report" --step "$1")
    echo "step $1, $2 splits: a report of $(wc -c <"$work/report") bytes, $(cat "$work/text")"
    echo "    the plan takes $planned"
    echo "    the check takes $checked, $(python3 -c "print(f'{100 * ${checked%% *} / ${planned%% *}:.1f} per cent of it')")"
done
