# Lines that the measurements generate; read by the scripts that use them.

# A line of so many tasks, with times of 100 to 999: in a tree each task follows an earlier one, and in a sparse order
# every second one does. A third word is the seed.
generate() {
    awk -v order="$1" -v n="$2" -v seed="${3:-12345}" 'BEGIN {
        x = seed + n
        print n
        for (j = 1; j <= n; j++) { x = (x * 16807) % 2147483647; print 100 + x % 900 }
        for (j = 2; j <= n; j++) {
            x = (x * 16807) % 2147483647
            if (order == "tree" || x % 2 == 0) print 1 + int(x / 2) % (j - 1) "," j
        }
        print "-1,-1"
    }'
}
