#!/usr/bin/env bash
# effects.sh: renders the graph of each effect in examples/effects and writes its picture, of 160 by 90 pixels, as
# docs/effects/NAME.png, which docs/effects.md shows. It wants Netpbm (on Debian: apt-get install netpbm); where it
# isn't installed, it says so.
set -eu
here=$(cd "$(dirname "${BASH_SOURCE[0]}")/.." && pwd)

if ! command -v pamtopng >/dev/null; then
  echo "effects.sh: Netpbm isn't installed (on Debian: apt-get install netpbm)"
  exit 0
fi

mkdir -p "$here/docs/effects"
folder=$(mktemp -d)
trap 'rm -r "$folder"' EXIT
cd "$folder"
for graph in "$here"/examples/effects/*.json; do
  name=$(basename "$graph" .json)
  "$here/ofxr" render "$graph" >/dev/null
  pamtopng "$name".*.pam >"$here/docs/effects/$name.png"
done
echo "wrote $(ls "$here/docs/effects" | wc -l) pictures to $here/docs/effects"
