# Read by plan.sh and sessions.sh: a line with a section of each kind for every 100 m, a train and a service.
long_line() { # a line of $1 sections of each kind
    awk -v n="$1" 'BEGIN {
        print "kind,from,to,value"
        x = 1
        for (i = 0; i < n; i++) {
            x = (16807 * x) % 2147483647; print "limit," 100 * i "," 100 * (i + 1) "," 54 + x % 67
            x = (16807 * x) % 2147483647; print "gradient," 100 * i "," 100 * (i + 1) "," x % 201 - 100
        } }'
}
long_service() { # a call every 20 km of $1 sections
    awk -v n="$1" 'BEGIN {
        print "place,name,dwell,latest\n0,A,,"
        for (p = 20000; p < 100 * n; p += 20000) print p ",S,30,"
        print 100 * n ",Z,,172800" }'
}
long_train() { # a train of 400 tonnes
    cat <<'EOT'
mass = 4000
inertia = 4200
a = 4000
b = 30
c = 800
traction = [[0, 250000], [1500, 250000], [4000, 100000]]
brake = [[0, 300000], [4000, 300000]]
EOT
}
