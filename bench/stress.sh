#!/usr/bin/env bash
# Runs `parfum adapt` by 2 to 8 workers RUNS times (200 if unset) on grids of about 10^3 to 10^5 triangles in 4 to 64 chunks,
# each with a table of sizes of its own, and looks at what each run wrote: `parfum replay` of its journal must write the same
# three files byte for byte, and `parfum check` must read them. SEED (1 if unset) begins the random numbers.
#
# It prints a line for each run that fails, and at the end how many runs there were, with how many operations, and how many
# of them came to rest. The status is 0 where none failed.
set -euo pipefail
. "$(dirname "$0")/program.sh"
runs=${RUNS:-200}
RANDOM=${SEED:-1}

# A number from the first to the second.
between() {
    echo $(($1 + (RANDOM * 32768 + RANDOM) % ($2 - $1 + 1)))
}

# A slanted grid of n by n cells, each cut by a diagonal, in so many chunks, rows or columns of cells, and a table of sizes
# with rectangles that lie at random.
make_grid() {
    rm -f ./*.node ./*.ele ./*.part ./*.size ./*.journal ./*.rest
    awk -v n="$1" -v chunks="$2" -v slant="$3" -v seed="$4" 'BEGIN {
        srand(seed)
        print (n + 1) * (n + 1), 2, 0, 0 > "g.node"
        for (y = 0; y <= n; y++) for (x = 0; x <= n; x++) print k++, 64 * x + slant * y, 64 * y > "g.node"
        print 2 * n * n, 3, 0 > "g.ele"
        for (y = 0; y < n; y++) for (x = 0; x < n; x++) {
            a = y * (n + 1) + x
            print f++, a, a + 1, a + n + 2 > "g.ele"
            print f++, a, a + n + 2, a + n + 1 > "g.ele"
            c = int((seed % 2 ? x : y) * chunks / n)
            print c "\n" c > "g.part"
        }
        for (row = 0; row < 6; row++) {
            left = int(rand() * 64 * n); low = int(rand() * 64 * n); wide = int(rand() * 32 * n); high = int(rand() * 32 * n)
            most = 1024 * 2 ^ int(rand() * 5)
            print left, low, left + wide, low + high, int(most / 8), most > "g.size"
        }
        print "default 2048 16384" > "g.size"
    }'
}

failed=0 quiet=0 operations=0
for ((run = 1; run <= runs; run++)); do
    side=$(between 22 223)
    chunks=$((1 << $(between 2 6)))
    ((chunks <= side)) || chunks=16
    workers=$(between 2 8)
    make_grid "$side" "$chunks" "$(between -24 24)" "$((RANDOM + 1))"
    what="run $run: side $side, $chunks chunks, $workers workers"
    if ! "$program" adapt g o --workers "$workers" >said; then
        echo "$what: $(cat said)"
        failed=$((failed + 1))
        continue
    fi
    operations=$((operations + $(awk '$1 == "operations" { print $2 }' said)))
    [[ $(tail -n 1 said) == quiet ]] && quiet=$((quiet + 1))
    cp o.journal p.journal
    if ! "$program" replay g p >replayed || ! "$program" check o >checked; then
        echo "$what: $(cat replayed checked)"
        failed=$((failed + 1))
    elif ! cmp -s o.node p.node || ! cmp -s o.ele p.ele || ! cmp -s o.part p.part; then
        echo "$what: the replay wrote other files"
        failed=$((failed + 1))
    fi
done
echo "$runs runs, $operations operations, $quiet quiet, $failed failed"
((failed == 0))
