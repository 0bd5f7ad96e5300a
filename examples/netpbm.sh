#!/usr/bin/env bash
# netpbm.sh: renders the first example and has Netpbm's own tools read it: pamfile tells its form, and
# pamtopng makes sky.0000.png. Where they aren't installed, it says so and shows the file's header.
set -eu
here=$(cd "$(dirname "${BASH_SOURCE[0]}")/.." && pwd)

"$here/ofxr" render "$here/examples/first/g.json"
if command -v pamfile >/dev/null; then
  pamfile sky.0000.pam
else
  echo "pamfile isn't installed; the header of sky.0000.pam:"
  head -n 7 sky.0000.pam
fi
if command -v pamtopng >/dev/null; then
  pamtopng sky.0000.pam >sky.0000.png
  echo "wrote sky.0000.png"
else
  echo "pamtopng isn't installed: no PNG was made"
fi
