#!/bin/sh
# sh launch.sh PROGRAM WORD..: runs a program of this repository in the folder where you are; proves and builds it on first use, and again where
# a source has changed since. Where the build fails it ends with 70 and names the log. `./advice`, `./costate` and `./sheet` call it.
name=$1
shift
top=$(cd "$(dirname "$0")" && pwd)
program=$top/crates/$name/out/$name
if [ ! -x "$program" ] || [ -n "$(find "$top/crates" -name out -prune -o -newer "$program" \( -name '*.rt' -o -name '*.antt' \) -print | head -n 1)" ]; then
    log=$(mktemp "${TMPDIR:-/tmp}/$name-build.XXXXXX") || exit 70
    echo "$name: proving and building the program, once" >&2
    rm -f "$program"
    # Without words the program prints its usage.
    (cd "$top/crates/$name" && rt run) >"$log" 2>&1
    [ -x "$program" ] || { echo "$name: the build failed; see $log" >&2; exit 70; }
    rm -f "$log"
fi
exec "$program" "$@"
