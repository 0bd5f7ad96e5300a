#!/usr/bin/env bash
# title.sh: has ffmpeg make 48 frames, renders a title over them (examples/title/g.json: a bar, and a striped block
# that moves over it), and has ffmpeg make a film of the result, examples/title/titled.mp4. It wants ffmpeg
# (on Debian: apt-get install ffmpeg); where it isn't installed, it says so.
set -eu
here=$(cd "$(dirname "${BASH_SOURCE[0]}")/.." && pwd)
cd "$here/examples/title"

if ! command -v ffmpeg >/dev/null; then
  echo "title.sh: ffmpeg isn't installed (on Debian: apt-get install ffmpeg)"
  exit 0
fi

quiet=(-hide_banner -loglevel error -y)
ffmpeg "${quiet[@]}" -f lavfi -i testsrc2=size=640x360:rate=24 -frames:v 48 -pix_fmt rgba -start_number 0 plate.%04d.pam
"$here/ofxr" render g.json
ffmpeg "${quiet[@]}" -framerate 24 -start_number 0 -i titled.%04d.pam -pix_fmt yuv420p titled.mp4
echo "wrote $PWD/titled.mp4"
