#!/usr/bin/env bash
# Takes the time of rest lists on slanted grids of about 10^4 to 2 * 10^6 triangles, beside that of building the mesh, and
# prints a table in Markdown: with a size table under which no edge is long or short, one under which all are long, and one
# under which all are short.
#
# A time is the best of RUNS runs (5 if unset) of a whole process. `Build` is what building the mesh adds to making the grid,
# and a list half of what two lists more add. The program is crates/rest_speed; it is proved and built first where that is still
# to be done, unless REST_SPEED names one that is built.
set -euo pipefail
cd "$(dirname "$0")/.."
runs=${RUNS:-5}
if [[ -z ${REST_SPEED:-} ]]; then
    (cd crates/rest_speed && rt run -- 2 none 0 >/dev/null 2>&1) || true
    REST_SPEED=$PWD/crates/rest_speed/out/rest_speed
fi
program=$REST_SPEED
[[ -x $program ]] || { echo "crates/rest_speed isn't built" >&2; exit 1; }

# The best time of a run in microseconds.
best() {
    for ((run = 0; run < runs; run++)); do
        local begun=$EPOCHREALTIME
        "$program" "$@" >/dev/null
        local ended=$EPOCHREALTIME
        echo $((${ended/./} - ${begun/./}))
    done | sort -n | head -n 1
}

echo "| Date | Cores | Runs | Triangles | Build | No edge | Every edge long | Every edge short |"
echo "|---|---|---|---|---|---|---|---|"
for cells in 70 223 707 1000; do
    grid=$(best "$cells" grid 0)
    built=$(best "$cells" none 0)
    lists=()
    for table in none long short; do
        one=$(best "$cells" "$table" 1)
        three=$(best "$cells" "$table" 3)
        lists+=($(((three - one) / 2)))
    done
    awk -v date="$(date +%F)" -v cores="$(nproc)" -v runs="$runs" -v triangles="$((2 * cells * cells))" \
        -v build="$((built - grid))" -v none="${lists[0]}" -v long="${lists[1]}" -v short="${lists[2]}" '
        function list(time) { return sprintf("%.3f s, %.1f builds", time / 1e6, time / build) }
        BEGIN {
            printf "| %s | %d | %d | %d | %.3f s | %s | %s | %s |\n", date, cores, runs, triangles, build / 1e6, list(none), list(long), list(short)
        }'
done
