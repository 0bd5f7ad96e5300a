#!/usr/bin/env bash
# cards.sh: checks and renders a graph of format 2 (examples/cards/g.json): a card with a soft shadow is written once, as a
# group, and used three times; two takes stand beside it, which are looked at and left. Netpbm's pamtopng makes
# cards.0000.png of the picture (on Debian: apt-get install netpbm); where it isn't installed, it says so.
set -eu
here=$(cd "$(dirname "${BASH_SOURCE[0]}")/.." && pwd)
cd "$here/examples/cards"

"$here/ofxr" check g.json
"$here/ofxr" render g.json
if command -v pamtopng >/dev/null; then
  pamtopng cards.0000.pam >cards.0000.png
  echo "wrote $PWD/cards.0000.png"
else
  echo "pamtopng isn't installed (on Debian: apt-get install netpbm): no PNG was made"
fi
