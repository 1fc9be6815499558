# Read by route.sh, plan.sh, plans.sh, check.sh, costates.sh, samples.sh, sessions.sh and sheets.sh: builds the program, `advice` or the one that `program` names, and counts what a run of it takes.
# Needs rt, valgrind and /usr/bin/time.
top=$(cd "$(dirname "$0")/.." && pwd)
work=$(mktemp -d)
trap 'rm -rf "$work"' EXIT
program=${program:-advice}
built=$top/crates/$program/out/$program

# A build that fails leaves no program, so that none of an earlier build is measured. The status of `rt run` is the program's own.
rm -f "$built"
(cd "$top/crates/$program" && rt run -- route data/downhill.route >"$work/build" 2>&1) || true
if ! test -x "$built"; then
    cat "$work/build" >&2
    exit 1
fi

measured() { # the instructions, the memory and the gap of a run with these words
    valgrind --tool=callgrind --callgrind-out-file="$work/callgrind" "$built" "$@" >"$work/text" 2>"$work/log" || true
    count=$(sed -n 's/.*Collected : //p' "$work/log")
    if test -z "$count"; then
        cat "$work/log" >&2
        exit 1
    fi
    # A small parent: what a large one has resident before it starts the program would count as the program's.
    /usr/bin/time -f %M -o "$work/memory" "$built" "$@" >/dev/null || true
    memory=$(tail -1 "$work/memory")
    echo "$count instructions, $memory kB, $(sed -n 2p "$work/text")"
}
