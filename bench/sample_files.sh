# Read by search_program.sh and costates.sh: writes the files of samples into the folder where it is called. Needs awk.
sample() { # the line and the service of the sample of this number
    awk -v n="$1" 'BEGIN {
        x = n % 2147483648
        for (k = 0; k < 84; k++) {
            d[k] = int(x / 65536)
            x = (1103515245 * (x % 65536) + 12345 + (1103515245 * d[k] % 32768) * 65536) % 2147483648
        }
        print "kind,from,to,value"
        for (b = 0; b < 40; b++) print "limit," 1000 * b "," 1000 * (b + 1) "," 54 + 9 * (d[2 * b + 2] % 9)
        for (b = 0; b < 40; b++) print "gradient," 1000 * b "," 1000 * (b + 1) "," d[2 * b + 1] % 101 - 50 }' >line.csv
    printf 'place,name,dwell,latest\n0,S0,,\n10000,S1,30,\n20000,S2,30,\n30000,S3,30,\n40000,S4,,3600\n' >service.csv
}

timed_sample() { # the same, with a latest time at each call
    sample "$1"
    printf 'place,name,dwell,latest\n0,S0,,\n10000,S1,30,700\n20000,S2,30,1500\n30000,S3,30,2700\n40000,S4,,3600\n' >service.csv
}
