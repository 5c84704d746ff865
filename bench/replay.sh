#!/usr/bin/env bash
# Takes the time of `parfum replay` on slanted grids of about 10^3 to 2 * 10^6 triangles, and prints three tables in Markdown.
#
# The first has the whole run with an empty journal, which reads, builds and writes, and beside it two runs that stop on the
# way: one whose `.ele` file has a line too many, which is found once all is read, and one without a `.part` file, which is
# missed once the mesh is built. The second has journals of OPERATIONS mixed operations (1000000 if unset, or as many as names
# are left): bisections of diagonals, contractions of the new nodes, and flips. Beside it stands a run with the first of them
# alone, which lists the nodes and triangles anew as every run with an operation does; the time of an operation is what the
# others add to that. The third has each kind of operation apart, over all diagonals of a grid: flips, bisections, and the
# contractions of the new nodes after them; beside them stands what listing anew takes, once in a run.
#
# Each time is the best of RUNS runs (5 if unset), of the whole process. Where YARDSTICK names a program that takes the same
# words and files without the command's name, its time stands beside in the same row.
set -euo pipefail
. "$(dirname "$0")/program.sh"
runs=${RUNS:-5}
operations=${OPERATIONS:-1000000}
yardstick=${YARDSTICK:-}

# A grid of n by n cells, each cut by its longer diagonal, and a journal of at most so many operations: on the first round
# each diagonal is bisected, the new node contracted away and the diagonal flipped, on later rounds the first two.
make_grid() {
    rm -f ./*.node ./*.ele ./*.part ./*.size ./*.journal
    awk -v n="$1" -v most="$operations" 'BEGIN {
        nodes = (n + 1) * (n + 1); t = 0
        print nodes, 2, 0, 0 > "g.node"
        for (y = 0; y <= n; y++) for (x = 0; x <= n; x++) print k++, 20 * x + 6 * y, 20 * y > "g.node"
        print 2 * n * n, 3, 0 > "g.ele"
        print "default 0 1152921504606846976" > "g.size"
        for (y = 0; y < n; y++) for (x = 0; x < n; x++) {
            a = y * (n + 1) + x
            print f++, a, a + 1, a + n + 2 > "g.ele"
            print f++, a, a + n + 2, a + n + 1 > "g.ele"
            print "0\n0" > "g.part"
        }
        print "parfum journal 1\nend 0" > "empty.journal"
        print "parfum journal 1\n0 0 bisect", 0, n + 2 "\nend 1" > "one.journal"
        print "parfum journal 1" > "mixed.journal"
        if (most > 1048576 - nodes) most = 1048576 - nodes
        for (round = 0; t + 3 <= most; round++)
            for (y = 0; y < n && t + 3 <= most; y++) for (x = 0; x < n && t + 3 <= most; x++) {
                a = y * (n + 1) + x
                if (round == 0) { p = a; q = a + n + 2 } else { p = a + 1; q = a + n + 1 }
                print t, 0, "bisect", p, q > "mixed.journal"
                print t + 1, 0, "contract", nodes + t, p > "mixed.journal"
                t += 2
                if (round == 0) print t++, 0, "flip", p, q > "mixed.journal"
            }
        print "end", t > "mixed.journal"
        print t > "count"
        each = most < 2 * n * n ? int(most / 2) : n * n
        print "parfum journal 1" > "flips.journal"
        print "parfum journal 1" > "halves.journal"
        print "parfum journal 1" > "back.journal"
        for (t = 0; t < each; t++) {
            a = int(t / n) * (n + 1) + t % n
            print t, 0, "flip", a, a + n + 2 > "flips.journal"
            print t, 0, "bisect", a, a + n + 2 > "halves.journal"
            print t, 0, "bisect", a, a + n + 2 > "back.journal"
        }
        for (t = 0; t < each; t++)
            print each + t, 0, "contract", nodes + t, int(t / n) * (n + 1) + t % n > "back.journal"
        print "end", each > "flips.journal"
        print "end", each > "halves.journal"
        print "end", 2 * each > "back.journal"
        print each > "each"
    }'
    ln -s g.node long.node
    { cat g.ele; echo more; } >long.ele
    ln -s g.node bare.node
    ln -s g.ele bare.ele
}

# The best time in seconds of a program on a mesh and a journal, and its peak memory in KB. The status doesn't matter.
best_of() {
    for ((run = 0; run < runs; run++)); do
        /usr/bin/time -q -f "%e %M" -o took "$1" replay "$2" "$3" >said 2>/dev/null || true
        cat took
    done | sort -n | head -n 1
}

# The best time in microseconds of a run that is to be done, by the shell's clock.
best_microseconds() {
    "$program" replay g "$1" >said 2>/dev/null || { cat said >&2; exit 1; }
    for ((run = 0; run < runs; run++)); do
        local begun=$EPOCHREALTIME
        "$program" replay g "$1" >said
        local ended=$EPOCHREALTIME
        echo $((${ended/./} - ${begun/./}))
    done | sort -n | head -n 1
}

# As `best_of`, for a run on the grid that is to be done.
best_done() {
    best "$1" replay g "$2"
}

# The yardstick takes its words without the command.
printf '#!/bin/sh\nshift\nexec "%s" "$@"\n' "$yardstick" >yardstick
chmod +x yardstick
other() {
    if [[ -z $yardstick ]]; then echo -; else read -r seconds _ < <(best_done "$work/yardstick" "$1"); echo "$seconds s"; fi
}

echo "| Date | Cores | Runs | Triangles | Read | Read, built | Whole | Peak KB | Yardstick |"
echo "|---|---|---|---|---|---|---|---|---|"
for side in 22 70 223 707; do
    make_grid "$side"
    read -r reads _ < <(best_of "$program" long empty)
    read -r builds _ < <(best_of "$program" bare empty)
    read -r whole peak < <(best_done "$program" empty)
    echo "| $(date +%F) | $(nproc) | $runs | $((2 * side * side)) | $reads s | $builds s | $whole s | $peak | $(other empty) |"
done
echo
echo "| Date | Cores | Runs | Triangles | Operations | Empty | One | Mixed | An operation | Peak KB | Yardstick |"
echo "|---|---|---|---|---|---|---|---|---|---|---|"
for side in 223 707 1000; do
    make_grid "$side"
    read -r empty _ < <(best_done "$program" empty)
    read -r one _ < <(best_done "$program" one)
    read -r mixed peak < <(best_done "$program" mixed)
    each=$(awk -v mixed="$mixed" -v one="$one" -v count="$(cat count)" 'BEGIN { printf "%.2f", 1e6 * (mixed - one) / (count - 1) }')
    echo "| $(date +%F) | $(nproc) | $runs | $((2 * side * side)) | $(cat count) | $empty s | $one s | $mixed s | $each µs | $peak | $(other mixed) |"
done
echo
echo "| Date | Cores | Runs | Triangles | Operations of a kind | Listing | Flip | Bisection | Contraction |"
echo "|---|---|---|---|---|---|---|---|---|"
for side in 22 70 223 707; do
    make_grid "$side"
    empty=$(best_microseconds empty)
    one=$(best_microseconds one)
    flips=$(best_microseconds flips)
    halves=$(best_microseconds halves)
    back=$(best_microseconds back)
    awk -v date="$(date +%F)" -v cores="$(nproc)" -v runs="$runs" -v triangles="$((2 * side * side))" -v each="$(cat each)" \
        -v empty="$empty" -v one="$one" -v flips="$flips" -v halves="$halves" -v back="$back" 'BEGIN {
        printf "| %s | %d | %d | %d | %d | %.1f ms | %.2f µs | %.2f µs | %.2f µs |\n", date, cores, runs, triangles, each,
            (one - empty) / 1000, (flips - one) / (each - 1), (halves - one) / (each - 1), (back - halves) / each
    }'
done
