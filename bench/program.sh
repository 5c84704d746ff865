# For the scripts beside it: builds the program, and goes to a new folder, which is removed at the end.
cd "$(dirname "$0")/.."
work=$(mktemp -d)
trap 'rm -rf "$work"' EXIT

if [[ -z ${PARFUM:-} ]]; then
    (cd crates/parfum && rt run >/dev/null 2>&1) || true
    PARFUM=$PWD/crates/parfum/out/parfum
fi
program=$PARFUM
[[ -x $program ]] || { echo "crates/parfum isn't built" >&2; exit 1; }
cd "$work"

# The best time in seconds of RUNS runs of a program with its words, and its peak memory in KB. The run is to be done.
best() {
    "$@" >said 2>/dev/null || { cat said >&2; exit 1; }
    for ((run = 0; run < runs; run++)); do
        /usr/bin/time -q -f "%e %M" -o took "$@" >said 2>/dev/null
        cat took
    done | sort -n | head -n 1
}
