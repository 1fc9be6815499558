#!/bin/sh
# Makes the picture of the front page anew, from the files in examples/6km. `examples/run.sh` compares it.
cd "$(dirname "$0")" || exit 1
files='../../examples/6km/line.csv ../../examples/6km/train.toml ../../examples/6km/timed.csv'
report=$(mktemp) || exit 1
trap 'rm -f "$report"' EXIT
../../costate plan $files --step 500 >"$report" && ../../sheet $files "$report" --step 500 --form svg >6km.svg
