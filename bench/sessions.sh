#!/bin/sh
# Instructions of each kind of event of `advice session` on a line of 400 km with a section of each kind for every 100 m (4,000 steps), without
# advice, and of the reading of events. A session of one kind of event, many times, less a session without events, is divided by their number.
# Needs rt, valgrind, awk and /usr/bin/time.
set -eu
. "$(dirname "$0")/program.sh"
. "$(dirname "$0")/long_line.sh"

long_line 4000 >"$work/line.csv"
long_service 4000 >"$work/service.csv"
long_train >"$work/train.toml"

instructions() { # of a session with the events on standard input
    { cat; echo end; } >"$work/events"
    set -- $(measured session "$work/line.csv" "$work/train.toml" "$work/service.csv" "$work/events")
    echo "$1"
}
cost() { # of one of $2 events of the kind $1, where $3 instructions aren't theirs
    echo "$1: $((($(cat) - $3) / $2)) instructions"
}

none=$(instructions </dev/null)
echo "without events: $none instructions"

pairs() { # $1 restrictions of the whole line, each lifted before the next
    awk -v n="$1" 'BEGIN { for (i = 0; i < n; i++) print "restrict works 0 400000 " 500 + i "\nlift works" }'
}
pairs 200 | instructions | cost "restrict and lift together, one restriction of the whole line" 200 "$none"

standing() { # 64 restrictions of the whole line
    awk 'BEGIN { for (i = 0; i < 64; i++) print "restrict works-" i " 0 400000 " 500 + i }'
}
stood=$(standing | instructions)
echo "$stood" | cost "restrict, 64 of the whole line one after another" 64 "$none"
{ standing; awk 'BEGIN { for (i = 0; i < 200; i++) print "lift works-63\nrestrict works-63 0 400000 800" }'; } |
    instructions | cost "lift and restrict together, beside 63 of the whole line" 200 "$stood"

awk 'BEGIN { for (i = 0; i < 500; i++) print "latest 200000 " 100000 + i }' | instructions | cost "latest" 500 "$none"
awk 'BEGIN { for (i = 0; i < 500; i++) print "at " 50 + 100 * i " 100 " i }' | instructions | cost "at, between two points" 500 "$none"
awk 'BEGIN { for (i = 1; i < 500; i++) print "at " 100 * i " 100 " i }' | instructions | cost "at, at a point" 499 "$none"

read_only=$(awk 'BEGIN { for (i = 0; i < 998; i++) print "lift works-that-never-stood-there" }' | instructions)
echo "reading an event and refusing it: $(((read_only - none) / (998 * 34))) instructions a byte"
