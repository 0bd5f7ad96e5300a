#!/usr/bin/env bash
# pam.sh: how fast PAM files are read and written on one core, in millions of samples a second, and how
# much memory a read takes at most. Frames are 1,920 by 8,192 pixels, which is 7.6 HD frames. What it
# takes to make the bytes, or the image, is taken off.
set -eu
here=$(cd "$(dirname "${BASH_SOURCE[0]}")/.." && pwd)
program=$here/crates/fx_speed/out/fx_speed
rows=8192

if [ ! -x "$program" ]; then
  echo "pam.sh: build the program first: rt run, in crates/fx_speed" >&2
  exit 2
fi

# The least nanoseconds of five times that the program takes with this word.
took() {
  local least=0 from to
  for _ in 1 2 3 4 5; do
    from=$(date +%s%N)
    "$program" "$1" $rows >/dev/null
    to=$(date +%s%N)
    if [ $least -eq 0 ] || [ $((to - from)) -lt $least ]; then least=$((to - from)); fi
  done
  echo $least
}

# measure BEFORE WORD SAMPLES WHAT: WORD does BEFORE and more, over so many samples a pixel.
measure() {
  local before all
  before=$(took "$1")
  all=$(took "$2")
  echo "$4: $(((1920 * rows * $3 * 1000) / (all - before))) million samples a second"
}

measure file read 4 'reading r, g, b and a in bytes'
measure file_rgb read_rgb 3 'reading r, g and b in bytes'
measure file_short read_short 4 'reading r, g, b and a in two bytes each'
measure file_scaled read_scaled 4 'reading r, g, b and a in bytes of which 100 is the greatest'
measure image write 4 'writing r, g, b and a in bytes'
measure image write_rgb 3 'writing r, g and b in bytes'

if [ -x /usr/bin/time ]; then
  peak=$(/usr/bin/time -f %M "$program" read $rows 2>&1 >/dev/null)
  echo "a read of $((1920 * rows * 4 / 1024)) KB of bytes to as many of image: $peak KB at most"
fi
