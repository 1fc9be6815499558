#!/bin/sh
# Runs each example of the programs and compares its status and what it prints, up to where a certificate begins, with what is said here; and
# checks that each plan's report is certified. Ends with the number that differ.
cd "$(dirname "$0")" || exit 1
report=$(mktemp)
got=$(mktemp)
want=$(mktemp)
plan=$(mktemp)
trap 'rm -f "$report" "$got" "$want" "$plan"' EXIT
failed=0
program=advice
title='certificate 1'

try() { # the wanted status; the wanted text, with '|' for line ends, or the file of a long one; and the words
    case $2 in
        answers/* | ../docs/*) cat "$2" ;;
        *) printf %s "$2" | tr '|' '\n' ;;
    esac >"$want"
    wanted=$1
    shift 2
    status=0
    ../$program "$@" >"$report" || status=$?
    sed "/^$title\$/q" "$report" >"$got"
    if [ "$status" = "$wanted" ] && cmp -s "$want" "$got"; then
        echo "ok   $program $*"
    else
        echo "DIFF $program $*: status $status, wanted $wanted"
        diff "$want" "$got"
        failed=$((failed + 1))
    fi
}

certify() { # of a plan: the words behind the command, whose report is checked with the same step
    ../$program plan "$@" >"$report"
    if ../$program check "$1" "$2" "$3" "$report" ${4+"$4"} ${5+"$5"} >"$got"; then
        echo "ok   check of the report of $program plan $*"
    else
        echo "DIFF check of the report of $program plan $*: $(cat "$got")"
        failed=$((failed + 1))
    fi
}

told() { # the file of what a session prints, without the certificates of its plans; and its words
    cp "$1" "$want"
    shift
    status=0
    ../advice session "$@" >"$report" || status=$?
    sed '/^certificate 1$/,/^end$/d' "$report" >"$got"
    if [ "$status" = 0 ] && cmp -s "$want" "$got"; then
        echo "ok   advice session $*"
    else
        echo "DIFF advice session $*: status $status, wanted 0"
        diff "$want" "$got"
        failed=$((failed + 1))
    fi
}

# Builds the programs where they aren't built yet; without words they answer with the usage.
../advice >/dev/null || [ $? != 70 ] || exit 70
../costate >/dev/null || [ $? != 70 ] || exit 70
../sheet >/dev/null || [ $? != 70 ] || exit 70

run_200m='advice 1|gap met|energy 6600000000000|kilojoules 3300|bound 6599679787200|cells 1002|splits 999|phase 0 100 part 0 800|phase 100 200 brake 800 0|time 200 50000 50000|certificate 1|'
whole_200m='advice 1|gap open|energy 6600000000000|kilojoules 3300|bound 200010000000|cells 3|splits 0|phase 0 100 part 0 800|phase 100 200 brake 800 0|time 200 50000 50000|certificate 1|'
regained_200m='advice 1|gap open|energy 3500000000000|kilojoules 1750|regeneration 500|traction 6600000000000|bound -4699990000000|cells 3|splits 0|phase 0 100 part 0 800|phase 100 200 brake 800 0|time 200 50000 50000|certificate 1|'
usage='usage: advice route FILE [--splits N] [--tolerance N]|       advice plan LINE TRAIN SERVICE [--step N] [--splits N] [--tolerance N]|       advice check LINE TRAIN SERVICE REPORT [--step N]|       advice session LINE TRAIN SERVICE EVENTS [--step N] [--splits N] [--tolerance N]|       advice sample N [--splits N] [--tolerance N]|'

# From one stop to the next: as three files, as one, and without a split, so that the gap is open.
try 0 "$run_200m" plan 200m/line.csv 200m/train.toml 200m/service.csv
try 0 "$run_200m" route two_steps.route
try 1 "$whole_200m" route two_steps.route --splits 0

# Half of the work of braking is given back.
try 1 "$regained_200m" plan 200m/line.csv regaining/train.toml 200m/service.csv --splits 0

# Reports that are checked: one of these files, whole and with a potential raised; and those of other plans.
try 0 'certified energy 6600000000000 bound 200010000000|' check 200m/line.csv 200m/train.toml 200m/service.csv answers/200m.txt
try 9 'refused certificate potential 1 0 0|' check 200m/line.csv 200m/train.toml 200m/service.csv bad/potential.txt
try 9 'refused certificate number energy|' check 200m/line.csv regaining/train.toml 200m/service.csv answers/200m.txt
certify 200m/line.csv regaining/train.toml 200m/service.csv
certify 6km/line.csv 6km/train.toml 6km/service.csv --step 500
certify 40km/line.csv 40km/train.toml 40km/service.csv --step 200

# Downhill all the way: no energy is wanted, so none can be saved, and the gap is met.
try 0 'advice 1|gap met|energy 0|kilojoules 0|bound 0|cells 920|splits 917|phase 0 200 brake 0 0|time 200 43574 50000|certificate 1|' route downhill.route

# Gradients and a restriction, by steps of 500 m; and a line of 40 km with two stops on the way.
try 0 answers/6km.txt plan 6km/line.csv 6km/train.toml 6km/service.csv --step 500
try 1 answers/40km.txt plan 40km/line.csv 40km/train.toml 40km/service.csv --step 200

# A train under way: a delay, a work site, another latest time.
told answers/6km_session.txt 6km/line.csv 6km/train.toml 6km/service.csv 6km/events.txt --step 500
try 3 'refused events form 1|' session 6km/line.csv 6km/train.toml 6km/service.csv 6km/line.csv

# Several timing points, one of them passed without a stop.
try 0 answers/6km_timed.txt plan 6km/line.csv 6km/train.toml 6km/timed.csv --step 500

# Late at the second timing point, and late at the end.
try 5 'advice 1|late 4000 272952 270000|' plan 6km/line.csv 6km/train.toml 6km/late.csv --step 500
try 5 'advice 1|late 200 40000 39000|' route late.route

# A train of 100 m is too long for a slack in the limits: its tail is in the section with the lower limit all the way.
try 5 'advice 1|late 300 100000 99000|' plan slack/line.csv slack/train.toml slack/service.csv

# No drive: the hill takes more force than the train has.
try 4 'advice 1|no drive|' plan 6km/steep.csv 6km/train.toml 6km/service.csv --step 500
try 4 'advice 1|no drive|' route too_steep.route

# A bad file of each kind: a gap between two limits, a force that rises, no latest time at the end, a limit of 0, no end.
try 3 'refused line gap 2|' plan bad/line.csv 200m/train.toml 200m/service.csv
try 3 'refused train table-rises traction 3|' plan 200m/line.csv bad/train.toml 200m/service.csv
try 3 'refused service no-final-latest|' plan 200m/line.csv 200m/train.toml bad/service.csv
try 3 'refused route range 7|' route bad/limit.route
try 3 'refused route form 9|' route bad/without_end.route

# Files that are right by themselves, and don't go together: with one step from stop to stop the train can't move.
try 3 'refused rules stops-too-close 2|' plan 200m/line.csv 200m/train.toml 200m/service.csv --step 200

# Files in each other's place, files that aren't there, and words that ask for nothing.
try 3 'refused line bad-header|' plan 200m/service.csv 200m/train.toml 200m/service.csv
try 3 'refused train text|' plan 200m/line.csv 200m/line.csv 200m/service.csv
try 3 'refused service bad-header|' plan 200m/line.csv 200m/train.toml 200m/line.csv
try 6 'read fault train|' plan 200m/line.csv absent.toml 200m/service.csv
try 6 'read fault route|' route absent.route
try 2 "$usage" route
try 2 "$usage" plan 200m/line.csv

# The program `costate`: the same drives, a bound without splits, and its certificates.
program=costate
title='costate 1'
usage='usage: costate plan LINE TRAIN SERVICE [--step N] [--tolerance N]|       costate route FILE [--tolerance N]|       costate check LINE TRAIN SERVICE REPORT [--step N]|'
regained_200m='advice 1|gap met|energy 3500000000000|kilojoules 1750|regeneration 500|traction 6600000000000|bound 3499479292574|phase 0 100 part 0 800|phase 100 200 brake 800 0|time 200 50000 50000|costate 1|'

# From one stop to the next, as three files, with the whole certificate, and as one; and where half of the work of braking is given back.
title=end
try 0 answers/costate/200m.txt plan 200m/line.csv 200m/train.toml 200m/service.csv
title='costate 1'
run_200m=$(sed '/^costate 1$/q' answers/costate/200m.txt | tr '\n' '|')
try 0 "$run_200m" route two_steps.route
try 0 "$regained_200m" plan 200m/line.csv regaining/train.toml 200m/service.csv

# Reports that are checked: that of the 200 m, whole and with a bound that is lower by one; for another train; one of `advice`; and those of
# other plans.
try 0 'certified energy 6600000000000 bound 6598955599328|' check 200m/line.csv 200m/train.toml 200m/service.csv answers/costate/200m.txt
try 9 'refused certificate number bound|' check 200m/line.csv 200m/train.toml 200m/service.csv bad/costate_bound.txt
try 9 'refused certificate number energy|' check 200m/line.csv regaining/train.toml 200m/service.csv answers/costate/200m.txt
try 9 'refused certificate form 1|' check 200m/line.csv 200m/train.toml 200m/service.csv answers/200m.txt
certify 200m/line.csv regaining/train.toml 200m/service.csv
certify 6km/line.csv 6km/train.toml 6km/service.csv --step 500
certify 40km/line.csv 40km/train.toml 40km/service.csv

# Downhill all the way, where the bound meets the energy; gradients and a restriction; several timing points; and 40 km by steps of 100 m.
try 0 'advice 1|gap met|energy 0|kilojoules 0|bound 0|phase 0 200 brake 0 0|time 200 43574 50000|costate 1|' route downhill.route --tolerance 0
try 0 answers/costate/6km.txt plan 6km/line.csv 6km/train.toml 6km/service.csv --step 500
try 0 answers/costate/6km_timed.txt plan 6km/line.csv 6km/train.toml 6km/timed.csv --step 500
try 0 answers/costate/40km.txt plan 40km/line.csv 40km/train.toml 40km/service.csv

# Late, no drive, a bad file, files that don't go together, a file that isn't there, and words that ask for nothing.
try 5 'advice 1|late 4000 272952 270000|' plan 6km/line.csv 6km/train.toml 6km/late.csv --step 500
try 5 'advice 1|late 200 40000 39000|' route late.route
try 4 'advice 1|no drive|' route too_steep.route
try 3 'refused line gap 2|' plan bad/line.csv 200m/train.toml 200m/service.csv
try 3 'refused route range 7|' route bad/limit.route
try 3 'refused rules stops-too-close 2|' plan 200m/line.csv 200m/train.toml 200m/service.csv --step 200
try 6 'read fault report|' check 200m/line.csv 200m/train.toml 200m/service.csv absent.txt
try 2 "$usage" route
try 2 "$usage" route two_steps.route --splits 0

# The program `sheet`: each form of the drives of reports by `costate`, whole, and of one by `advice`.
program=sheet
title='no line of a sheet'
usage=answers/sheet/usage.txt

planned() { # the words of a plan of `costate`, whose report is kept for what follows
    ../costate plan "$@" >"$plan"
}

planned 6km/line.csv 6km/train.toml 6km/timed.csv --step 500
try 0 answers/sheet/6km.txt 6km/line.csv 6km/train.toml 6km/timed.csv "$plan" --step 500
try 0 answers/sheet/6km.csv 6km/line.csv 6km/train.toml 6km/timed.csv "$plan" --step 500 --form points
try 0 ../docs/picture/6km.svg 6km/line.csv 6km/train.toml 6km/timed.csv "$plan" --step 500 --form svg
planned 40km/line.csv 40km/train.toml 40km/service.csv
try 0 answers/sheet/40km.txt 40km/line.csv 40km/train.toml 40km/service.csv "$plan"
try 0 answers/sheet/40km.csv 40km/line.csv 40km/train.toml 40km/service.csv "$plan" --form points
try 0 answers/sheet/40km.svg 40km/line.csv 40km/train.toml 40km/service.csv "$plan" --form svg
planned sample/line.csv sample/train.toml sample/service.csv
try 0 answers/sheet/sample.txt sample/line.csv sample/train.toml sample/service.csv "$plan"
try 0 answers/sheet/sample.csv sample/line.csv sample/train.toml sample/service.csv "$plan" --form points
try 0 answers/sheet/sample.svg sample/line.csv sample/train.toml sample/service.csv "$plan" --form svg
try 0 answers/sheet/200m.txt 200m/line.csv 200m/train.toml 200m/service.csv answers/200m.txt
try 0 answers/sheet/200m_regaining.txt 200m/line.csv regaining/train.toml 200m/service.csv answers/regaining.txt

# Reports that aren't shown, in the words of `check`: with another grid, for another train, later than the service wants, and no report.
try 9 'refused certificate number points|' 6km/line.csv 6km/train.toml 6km/timed.csv answers/200m.txt --step 500
try 9 'refused certificate number energy|' 200m/line.csv regaining/train.toml 200m/service.csv answers/200m.txt
try 9 'refused certificate form 1|' 200m/line.csv 200m/train.toml 200m/service.csv 200m/line.csv
try 9 'refused certificate drive limit 0|' 200m/line.csv 200m/train.toml 200m/service.csv bad/above_limit.txt

# A bad file, files that don't go together, a file that isn't there, and words that ask for nothing.
try 3 'refused service bad-header|' 200m/line.csv 200m/train.toml 200m/line.csv answers/200m.txt
try 3 'refused rules stops-too-close 2|' 200m/line.csv 200m/train.toml 200m/service.csv answers/200m.txt --step 200
try 6 'read fault report|' 200m/line.csv 200m/train.toml 200m/service.csv absent.txt
try 2 "$usage" 200m/line.csv 200m/train.toml 200m/service.csv
try 2 "$usage" 200m/line.csv 200m/train.toml 200m/service.csv answers/200m.txt --form pdf
exit "$failed"
