#!/usr/bin/env bash
# Takes the time of splitting a text of 100 MB into words and reading each as a number, beside
# `LC_ALL=C wc -w` on the same file in the same run. Prints the best of RUNS runs of each (5 if unset),
# as one row of a table in Markdown, and fails where the first takes more than three times the second.
# The program is crates/lex_speed; it is proved and built first where that is still to be done.
set -euo pipefail
cd "$(dirname "$0")/.."
runs=${RUNS:-5}
work=$(mktemp -d)
trap 'rm -rf "$work"' EXIT

# Lines of three numbers, as in a list of vertices: a number that counts up and two coordinates.
awk 'BEGIN {
    srand(7)
    for (i = 0; size < 100000000; i++) {
        line = i " " int((2 * rand() - 1) * 268435456) " " int((2 * rand() - 1) * 268435456)
        size += length(line) + 1
        print line
    }
}' >"$work/text"

(cd crates/lex_speed && rt run -- "$work/text" >/dev/null 2>&1)

seconds() {
    local best="" start end
    for ((run = 0; run < runs; run++)); do
        start=$(date +%s%N)
        "$@" >"$work/out"
        end=$(date +%s%N)
        if [[ -z $best || $((end - start)) -lt $best ]]; then best=$((end - start)); fi
    done
    echo "$best"
}

counting=$(LC_ALL=C seconds wc -w "$work/text")
words=$(awk '{ print $1 }' "$work/out")
reading=$(seconds crates/lex_speed/out/lex_speed "$work/text")
read -r _ found _ <"$work/out"
[[ $words == "$found" ]] || { echo "wc counts $words words, lex_speed $found" >&2; exit 1; }

awk -v date="$(date -u +%Y-%m-%d)" -v cores="$(nproc)" -v runs="$runs" -v bytes="$(stat -c %s "$work/text")" \
    -v words="$words" -v counting="$counting" -v reading="$reading" 'BEGIN {
    print "| Date | Cores | Runs | Bytes | Words | Split and read | `wc -w` | Ratio |"
    print "|---|---|---|---|---|---|---|---|"
    printf "| %s | %d | %d | %d | %d | %.2f s | %.2f s | %.2f |\n", date, cores, runs, bytes, words, reading / 1e9, counting / 1e9, reading / counting
    exit reading > 3 * counting
}'
