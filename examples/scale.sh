#!/usr/bin/env bash
# scale.sh: makes a frame (examples/scale/plate.json), renders a card over it (g.json) at its whole size, at a half, at a
# quarter and at an eighth, and has ofxr put the four pictures side by side (beside.json). Netpbm's pamtopng makes the
# picture that docs/graph.md shows of that (on Debian: apt-get install netpbm), docs/scale/beside.png; where it isn't
# installed, it says so.
set -eu
here=$(cd "$(dirname "${BASH_SOURCE[0]}")/.." && pwd)
cd "$here/examples/scale"

"$here/ofxr" render plate.json
for scale in 1 2 4 8; do
  # Each scale has the same names: put what is to be kept aside.
  "$here/ofxr" render g.json --scale $scale
  mv look.0000.pam look.$scale.pam
  echo "examples/scale/look.$scale.pam: $(sed -n '2,3p' look.$scale.pam | tr '\n' ' ')"
done
"$here/ofxr" render beside.json

if command -v pamtopng >/dev/null; then
  mkdir -p "$here/docs/scale"
  pamtopng beside.0000.pam >"$here/docs/scale/beside.png"
  echo "wrote $here/docs/scale/beside.png"
else
  echo "pamtopng isn't installed (on Debian: apt-get install netpbm): no PNG was made"
fi
