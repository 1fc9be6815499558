# Read by compose.sh, route.sh and speed_ranges.sh. Needs awk.

random_route() { # a route of $1 steps of 100 m: gradients between -100 and 100, limits between 1,500 and 3,333 cm/s, a train of 400 tonnes
    awk -v n="$1" 'BEGIN {
        print "route 1\ntrain 4000 4200 4000 30 800\ntop 4000\ntraction 250000\nbrake 300000\nlatest 172800"
        x = 1
        for (i = 0; i < n; i++) {
            x = (16807 * x) % 2147483647; g = x % 201 - 100
            x = (16807 * x) % 2147483647; l = 1500 + x % 1834
            print "step 100 " g " " l
        }
        print "end" }'
}
