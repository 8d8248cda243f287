#!/usr/bin/env bash
# Every Rattle and antt file is in the formatter's layout: over a copy it changes nothing. (rt ci refuses what is not laid out, too.)
set -u
cd "$(dirname "$0")/.." || exit 2
made=$(mktemp -d) || exit 2
trap 'rm -rf "$made"' EXIT

# Twice: one copy is laid out, the other is what it was.
for copy in was laid; do
    mkdir "$made/$copy" || exit 2
    find crates.txt crates -name out -prune -o -type f \( -name crates.txt -o -name '*.rt' -o -name '*.antt' \) -print0 |
        tar -c --null -T - | tar -x -C "$made/$copy" || exit 2
done
printf '%s\0' "$made"/laid/crates/*/ | xargs -0 -n 1 -P "$(nproc)" sh -c 'cd "$1" && rt fmt' '' >"$made/log" 2>&1 || {
    cat "$made/log"
    exit 1
}
rm -rf "$made"/laid/crates/*/out
diff -r -q "$made/was" "$made/laid"
