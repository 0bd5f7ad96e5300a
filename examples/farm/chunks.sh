#!/usr/bin/env bash
# chunks.sh GRAPH SIZE: prints the first and the last frame of each piece of the graph's range, of SIZE frames at most,
# a line each. `ofxr check` says how many frames there are, and refuses a graph that no piece could render.
set -eu
here=$(cd "$(dirname "${BASH_SOURCE[0]}")/../.." && pwd)

if ! report=$("$here/ofxr" check "$1"); then
  exit 2
fi
frames=$(sed -n 's/^frames //p' <<<"$report")
first=$(python3 -c 'import json, sys; print(json.load(open(sys.argv[1]))["range"]["first"])' "$1")
for ((at = 0; at < frames; at += $2)); do
  end=$((at + $2 < frames ? at + $2 : frames))
  echo "$((first + at)) $((first + end - 1))"
done
