#!/bin/sh
# Instructions, memory and gap of `costate plan` on lines of the examples and on a sample, by steps of several lengths, and of `costate check` of
# its reports. Needs rt, awk, valgrind and /usr/bin/time; it takes up to twenty minutes.
set -eu
program=costate
. "$(dirname "$0")/program.sh"
. "$(dirname "$0")/sample_files.sh"

gap() { # the energy and the bound of a report, and their gap in per mille
    awk '$1 == "energy" && !e { e = $2 } $1 == "bound" && !b { b = $2 } END { printf "energy %s, bound %s, gap %.3f per mille\n", e, b, 1000 * (e - b) / e }' "$1"
}

figures() { # of the files in this folder, by steps of this length
    planned=$(measured plan "$1/line.csv" "$1/train.toml" "$1/service.csv" --step "$2")
    cp "$work/text" "$work/report"
    checked=$(measured check "$1/line.csv" "$1/train.toml" "$1/service.csv" "$work/report" --step "$2")
    echo "$(basename "$1"), step $2: $(gap "$work/report"); a report of $(wc -c <"$work/report") bytes"
    echo "    the plan takes $planned"
    echo "    the check takes $checked"
}

for name in sample_1 timed_sample_1; do
    mkdir "$work/$name"
    cp "$top/examples/40km/train.toml" "$work/$name/"
done
(cd "$work/sample_1" && sample 1)
(cd "$work/timed_sample_1" && timed_sample 1)

for step in 500 100; do figures "$top/examples/6km" "$step"; done
for step in 1000 100; do figures "$work/sample_1" "$step"; done
figures "$work/timed_sample_1" 100
for step in 1000 500 200 100 50 10; do figures "$top/examples/40km" "$step"; done
