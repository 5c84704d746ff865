#!/usr/bin/env bash
# Takes the time of `parfum adapt` on slanted grids, and prints a table in Markdown. The table of sizes asks for edges of half
# the length in the lower left quarter of the square, so that triangles there are cut in four, and for longer ones elsewhere,
# so that nodes there go.
#
# SIDES names how many cells the sides have (70 223 707 if unset, which makes about 10^4, 10^5 and 10^6 triangles), CHUNKS in
# how many chunks they are cut (1), and WORKERS how many workers there are (1). Chunks are strips of rows, at least 16 of them
# where there are several chunks, so that each worker has a part of the finer quarter.
#
# With GRID=demo the grids are those of the command `demo`, which itself makes them for up to 64 cells a side: square cells, four
# strips of rows as chunks whatever CHUNKS says, and a finer corner. SIDES=700 makes about a million triangles.
#
# Each time is the best of RUNS runs (3 if unset), of the whole process, beside that of a run that may do no operation, which
# reads, divides, lists and writes. Then come the peak of its memory, how many operations it did, whether it came to rest, and
# the time of an operation: the difference of both times, divided by their number. Where YARDSTICK names a program that takes
# BASE and OUT as its words and writes the same files, its time and its operations stand beside in the same row.
set -euo pipefail
. "$(dirname "$0")/program.sh"
runs=${RUNS:-3}
yardstick=${YARDSTICK:-}

# The grid of `demo` with n by n cells.
make_demo() {
    awk -v n="$1" 'BEGIN {
        print (n + 1) * (n + 1), 2, 0, 0 > "g.node"
        for (y = 0; y <= n; y++) for (x = 0; x <= n; x++) print k++, 64 * x, 64 * y > "g.node"
        print 2 * n * n, 3, 0 > "g.ele"
        for (y = 0; y < n; y++) for (x = 0; x < n; x++) {
            a = y * (n + 1) + x
            print f++, a, a + 1, a + n + 2 > "g.ele"
            print f++, a, a + n + 2, a + n + 1 > "g.ele"
            c = int(4 * y / n)
            print c "\n" c > "g.part"
        }
        print 0, 0, 16 * n, 16 * n, 256, 2048 > "g.size"
        print "default 0 8192" > "g.size"
    }'
}

# A grid of n by n cells, each cut by its longer diagonal, in so many chunks.
make_grid() {
    rm -f ./*.node ./*.ele ./*.part ./*.size ./*.journal ./*.rest
    if [[ ${GRID:-} == demo ]]; then
        make_demo "$1"
        return
    fi
    awk -v n="$1" -v chunks="$2" 'BEGIN {
        strips = chunks == 1 ? 1 : chunks < 16 ? 16 : chunks
        print (n + 1) * (n + 1), 2, 0, 0 > "g.node"
        for (y = 0; y <= n; y++) for (x = 0; x <= n; x++) print k++, 64 * x + 16 * y, 64 * y > "g.node"
        print 2 * n * n, 3, 0 > "g.ele"
        for (y = 0; y < n; y++) for (x = 0; x < n; x++) {
            a = y * (n + 1) + x
            print f++, a, a + 1, a + n + 2 > "g.ele"
            print f++, a, a + n + 2, a + n + 1 > "g.ele"
            c = int(y * strips / n) % chunks
            print c "\n" c > "g.part"
        }
        half = 32 * n
        print 0, 0, half, half, 256, 2048 > "g.size"
        print "default 8192 32768" > "g.size"
    }'
}

# How many operations the last run says that it did.
operations() {
    awk '$1 == "operations" { print $2 }' said
}

echo "| Date | Cores | Runs | Triangles | Chunks | Workers | None | Whole | Peak KB | Operations | End | An operation | Yardstick | Its operations |"
echo "|---|---|---|---|---|---|---|---|---|---|---|---|---|---|"
for side in ${SIDES:-70 223 707}; do
    for chunks in ${CHUNKS:-1}; do
        make_grid "$side" "$chunks"
        other=- others=-
        if [[ -n $yardstick ]]; then
            read -r seconds _ < <(best "$yardstick" g p)
            other="$seconds s"
            others=$(operations)
        fi
        for workers in ${WORKERS:-1}; do
            read -r none _ < <(best "$program" adapt g o --workers "$workers" --ops 0)
            read -r whole peak < <(best "$program" adapt g o --workers "$workers")
            "$program" adapt g o --workers "$workers" >said
            end=$(tail -n 1 said)
            count=$(operations)
            each=$(awk -v whole="$whole" -v none="$none" -v count="$count" 'BEGIN { if (count) printf "%.2f µs", 1e6 * (whole - none) / count; else print "-" }')
            echo "| $(date +%F) | $(nproc) | $runs | $((2 * side * side)) | $chunks | $workers | $none s | $whole s | $peak | $count | $end | $each | $other | ${others:--} |"
        done
    done
done
