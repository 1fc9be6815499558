#!/bin/sh
# Instructions, memory and bytes of the three forms of a sheet, of reports by `costate` on lines of the examples. Needs rt, valgrind and
# /usr/bin/time; the first time it takes as long as it takes to build both programs.
set -eu
program=sheet
. "$(dirname "$0")/program.sh"

forms() { # of the files in this folder, by steps of this length
    files="$1/line.csv $1/train.toml $1/service.csv"
    "$top/costate" plan $files --step "$2" >"$work/report" || test $? = 1
    for form in timetable points svg; do
        taken=$(measured $files "$work/report" --step "$2" --form "$form")
        echo "$(basename "$1"), step $2, $form: $(wc -c <"$work/text") bytes, $(echo "$taken" | sed 's/ kB.*/ kB/')"
    done
}

forms "$top/examples/6km" 500
forms "$top/examples/40km" 100
forms "$top/examples/40km" 10
