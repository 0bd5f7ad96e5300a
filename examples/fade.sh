#!/usr/bin/env bash
# fade.sh: has ffmpeg make two shots of 48 frames each, fades from the one to the other by keys while the first grows
# soft (examples/fade/g.json), and has ffmpeg make a film of the result, examples/fade/fade.mp4. It wants ffmpeg
# (on Debian: apt-get install ffmpeg); where it isn't installed, it says so.
set -eu
here=$(cd "$(dirname "${BASH_SOURCE[0]}")/.." && pwd)
cd "$here/examples/fade"

if ! command -v ffmpeg >/dev/null; then
  echo "fade.sh: ffmpeg isn't installed (on Debian: apt-get install ffmpeg)"
  exit 0
fi

quiet=(-hide_banner -loglevel error -y)
shot() {
  ffmpeg "${quiet[@]}" -f lavfi -i "$1=size=640x360:rate=24" -frames:v 48 -pix_fmt rgba -start_number 0 "$2.%04d.pam"
}
shot testsrc2 one
shot smptehdbars other
"$here/ofxr" render g.json
ffmpeg "${quiet[@]}" -framerate 24 -start_number 0 -i fade.%04d.pam -pix_fmt yuv420p fade.mp4
echo "wrote $PWD/fade.mp4"
