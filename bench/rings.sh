#!/usr/bin/env bash
# Shows that a program which keeps a star lent over `give_back` or `commit` doesn't compile. It makes each change that
# crates/*/must-fail/ring_kept_*.md tells on a copy of the crates, and has the tests of pf_driver compiled there, unproved:
# the compiler must refuse the change for its borrow. Without a change they must compile.
#
# The gate tries such changes on the prover alone, which these never reach.
set -euo pipefail
top=$(cd "$(dirname "$0")/.." && pwd)
room=$(mktemp -d)
trap 'rm -rf "$room"' EXIT

# Copies the crates' texts, but for what was made of them.
copy_crates() {
    rm -rf "$room/crates" && mkdir "$room/crates"
    cp "$top/crates.txt" "$top/HANDLES" "$room/"
    (cd "$top" && tar cf - --exclude=out crates) | (cd "$room" && tar xf -)
}

# Compiles the tests of the copy, and runs them.
try_tests() {
    (cd "$room/crates/driver_tests" && rt try --test 2>&1)
}

# Puts what stands after 'new: ' in the place of what stands after 'old: ', which is in the file once.
change() {
    awk -v told="$1" 'BEGIN {
        while ((getline line < told) > 0) {
            if (index(line, "old: ") == 1) old = substr(line, 6)
            if (index(line, "new: ") == 1) new = substr(line, 6)
        }
    }
    { at = index($0, old); if (at) { found++; $0 = substr($0, 1, at - 1) new substr($0, at + length(old)) } print }
    END { exit found != 1 }' "$2" > "$room/changed"
    cp "$room/changed" "$2"
}

copy_crates
said=$(try_tests) || { echo "without a change: $said"; exit 1; }
echo "without a change: compiled"
for told in "$top"/crates/*/must-fail/ring_kept_*.md; do
    crate=$(basename "$(dirname "$(dirname "$told")")")
    name=$(basename "$told" .md)
    copy_crates
    change "$told" "$room/crates/$crate/$(sed -n 's/^file: //p' "$told")"
    said=$(try_tests || true)
    if grep -q 'error\[borrow-' <<< "$said"; then
        echo "$name: refused: $(grep -o -m1 'error\[borrow-.*' <<< "$said" | cut -d: -f1-2)"
    else
        echo "$name: not refused for its borrow"
        exit 1
    fi
done
