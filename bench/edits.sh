#!/bin/sh
# Tries the wrong bodies that the gate leaves out for its time: each must be refused.
#   bench/edits.sh CRATE ..    those of these crates (bench/edits/CRATE/)
# It works on a copy, takes over the libraries that checks here have built, and needs `rt`.
set -eu
root=$(cd "$(dirname "$0")/.." && pwd)
if [ $# -eq 0 ]; then
    echo "usage: bench/edits.sh CRATE .., of: $(ls "$root/bench/edits" | tr '\n' ' ')" >&2
    exit 2
fi
for crate in "$@"; do
    if [ ! -d "$root/bench/edits/$crate" ]; then
        echo "bench/edits.sh: no edits of $crate" >&2
        exit 2
    fi
done
room=$(mktemp -d)
trap 'rm -rf "$room"' EXIT
(cd "$root" && tar cf - --exclude=out/incremental crates crates.txt HANDLES) | tar xf - -C "$room"
for crate in "$@"; do
    rm -rf "$room/crates/$crate/must-fail"
    cp -R "$root/bench/edits/$crate" "$room/crates/$crate/must-fail"
done
cd "$room"
rt must-fail "$@"
