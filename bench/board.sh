#!/usr/bin/env bash
# Takes the time of a board under 1, 2 and 4 threads, and prints a table in Markdown. Each thread tries flips, bisections and
# contractions at random edges of a slanted grid of about 20,000 triangles. At its end each run compares the board's copies with
# the stars of the grid after the board's journal is replayed on it, and the script stops where they differ.
#
# A time is the best of RUNS runs (5 if unset) of a whole process with TRIES tries (400000 if unset) in all, less that of one with
# no tries. Both hold making the grid and the board, and closing it; a run with tries also replays them, so the rates are a little
# low. The program is crates/board_speed; it is proved and built first where that is still to be done, unless BOARD_SPEED names one
# that is built.
set -euo pipefail
cd "$(dirname "$0")/.."
runs=${RUNS:-5}
tries=${TRIES:-400000}
cells=${CELLS:-100}
if [[ -z ${BOARD_SPEED:-} ]]; then
    (cd crates/board_speed && rt run >/dev/null 2>&1) || true
    BOARD_SPEED=$PWD/crates/board_speed/out/board_speed
fi
program=$BOARD_SPEED
[[ -x $program ]] || { echo "crates/board_speed isn't built" >&2; exit 1; }

# The best time of a run in microseconds, and its operations.
best() {
    for ((run = 0; run < runs; run++)); do
        local begun=$EPOCHREALTIME
        local said
        said=$("$program" "$@" counts)
        local ended=$EPOCHREALTIME
        if [[ $said != *"replayed true"* ]]; then
            echo "the board isn't its replay: $said" >&2
            exit 1
        fi
        echo "$((${ended/./} - ${begun/./})) $(awk '/operations/ { print $2 }' <<<"$said")"
    done | sort -n | head -n 1
}

echo "| Date | Cores | Runs | Triangles | Threads | Tries | Operations | Time | Tries a second | Operations a second |"
echo "|---|---|---|---|---|---|---|---|---|---|"
for threads in 1 2 4; do
    read -r idle _ < <(best "$cells" "$threads" 0 "$tries")
    read -r whole operations < <(best "$cells" "$threads" $((tries / threads)) "$tries")
    awk -v date="$(date +%F)" -v cores="$(nproc)" -v runs="$runs" -v triangles="$((2 * cells * cells))" -v threads="$threads" \
        -v tries="$((tries / threads * threads))" -v operations="$operations" -v time="$((whole - idle))" '
        BEGIN {
            printf "| %s | %d | %d | %d | %d | %d | %d | %.3f s | %d | %d |\n", date, cores, runs, triangles, threads, tries, operations, time / 1e6, tries / time * 1e6, operations / time * 1e6
        }'
done
