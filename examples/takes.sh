#!/usr/bin/env bash
# takes.sh: renders a card that lies on the ground, as it is written and at three takes (examples/takes/g.json): its
# shadow is made softer, then it falls farther, and then it dusks. Netpbm's pamtopng makes the four pictures that
# docs/graph.md shows (on Debian: apt-get install netpbm), in docs/takes; where it isn't installed, it says so.
set -eu
here=$(cd "$(dirname "${BASH_SOURCE[0]}")/.." && pwd)
cd "$here/examples/takes"

"$here/ofxr" takes g.json
if command -v pamtopng >/dev/null; then
  mkdir -p "$here/docs/takes"
  for name in card soft far dusk; do
    pamtopng $name.0000.pam >"$here/docs/takes/$name.png"
  done
  echo "wrote 4 pictures to $here/docs/takes"
else
  echo "pamtopng isn't installed (on Debian: apt-get install netpbm): no PNG was made"
fi
