#!/bin/sh
# Searches for drives on random runs: each answer is on time and no dearer than the best of the family, and each search ends. Needs rt and
# awk.
#
# usage: bench/random_searches.sh [COUNT [FIRST]]        1,000 runs from seed 1 if left out
set -eu
. "$(dirname "$0")/search_program.sh"

random_run() { # line.csv, train.toml and service.csv of this seed; prints the step
    awk -v seed="$1" 'function draw(n) { x = (16807 * x) % 2147483647; return int(x / 7) % n }
    BEGIN {
        x = 48271 * seed % 2147483647
        for (i = 0; i < 9; i++) draw(2)
        split("10 50 100 200 500 1000", steps, " "); step = steps[1 + draw(6)]
        n = 3 + draw(118); length_ = n * step
        print "kind,from,to,value" >"line.csv"
        for (i = 0; i < n; i++) {
            print "limit," i * step "," (i + 1) * step "," 15 + draw(130) >"line.csv"
            print "gradient," i * step "," (i + 1) * step "," draw(301) - 150 >"line.csv" }
        mass = 200 + draw(30000); force = mass * (20 + draw(100)); force = force < 2000000 ? force : 2000000
        brake = mass * (40 + draw(80)); brake = brake < 2000000 ? brake : 2000000
        top = 500 + draw(4000); mid = 1 + draw(top - 1)
        print "mass = " mass "\ninertia = " mass + int(mass / 12) >"train.toml"
        print "a = " draw(2 * mass) "\nb = " draw(100) "\nc = " draw(1500) >"train.toml"
        print "traction = [[0, " force "], [" mid ", " force "], [" top ", " int(force * mid / top) "]]" >"train.toml"
        print "brake = [[0, " brake "], [" top ", " brake "]]" >"train.toml"
        print "place,name,dwell,latest\n0,A,," >"service.csv"
        slow = 2 + draw(20) / 10; time = 60
        for (i = 2; i < n; i++) {
            time += step / (top < 2000 ? top : 2000) * 100 * slow
            if (draw(30) == 0) {
                dwell = draw(60); time += 40
                print i * step ",S," dwell "," (draw(2) ? int(time) : "") >"service.csv"
                time += dwell; i++ } }
        print length_ ",Z,," int(time + 60) >"service.csv"
        print step }'
}

cd "$work/run"
first=${2:-1}
last=$((first + ${1:-1000} - 1))
for seed in $(seq "$first" "$last"); do
    step=$(random_run "$seed")
    answer=$(files | timeout 60 "$program" "$step" search) || answer=ended
    echo "$seed $step $answer"
done >"$work/answers"
awk '{ kinds[$3]++ }
    $3 == "family" { if ($6 > $4) bad++; if ($4 > 0) { sum += $6 / $4; count++ } }
    $3 != "family" && $3 != "late" && $3 != "refused" { bad++ }
    END {
        for (k in kinds) print k ": " kinds[k]
        if (count) printf "the energy found is %.3f of the family'"'"'s best on the mean\n", sum / count
        print "bad: " bad + 0
        exit bad > 0 }' "$work/answers"
