#!/usr/bin/env bash
# effects.sh: how long each effect of the program takes for a frame of 1,920 by 1,080 pixels of r, g, b and a on
# one core, in milliseconds and in millions of bytes written a second, of bytes and of short samples, as a whole
# frame and as tiles of 64 by 64 pixels, and how many times what copying the same rows takes; how many times a greater
# radius takes what a smaller one takes; what a row costs that crosses three pieces of an input, beside one of one
# piece; and what it takes to reduce a frame to a half, a quarter and an eighth, beside copying it. What it takes to make
# the inputs is taken off. `effects.sh NAME..` measures these effects alone, `row` the rows, `reduce` the frames. Each time is processor time, and the least of five, or of as many as REPEATS says.
set -eu
here=$(cd "$(dirname "${BASH_SOURCE[0]}")/.." && pwd)
program=$here/crates/fx_speed/out/fx_speed
repeats=${REPEATS:-5}

if [ ! -x "$program" ]; then
  echo "effects.sh: build the program first: rt run, in crates/fx_speed" >&2
  exit 2
fi

# took WORD COUNT TIMES: the least nanoseconds of so many times that the program takes of a processor with them, so that
# what else the machine does counts little.
took() {
  local least=0 turn user system spent TIMEFORMAT='%3U %3S'
  for ((turn = 0; turn < $3; turn++)); do
    read -r user system < <({ time "$program" "$1" "$2" >/dev/null; } 2>&1)
    spent=$((10#${user/./} + 10#${system/./}))
    if [ $least -eq 0 ] || [ $spent -lt $least ]; then least=$spent; fi
  done
  echo $((least * 1000000))
}

# cost WORD LEAST MOST: the nanoseconds of one of them, by as many as take a third of a second, from LEAST to MOST.
# The first one, for which memory is taken, doesn't count.
cost() {
  local one few count
  one=$(took "$1" 1 "$repeats")
  few=$(took "$1" $((1 + $2)) 1)
  count=$((few > one ? 333000000 * $2 / (few - one) : $3))
  count=$((count < $2 ? $2 : count > $3 ? $3 : count))
  echo $((($(took "$1" $((1 + count)) "$repeats") - one) / count))
}

# so_many A B: A / B with two decimals.
so_many() {
  printf '%d.%02d' $(($1 / $2)) $(($1 * 100 / $2 % 100))
}

declare -A costs

# measure NAME NUMBERS [BEFORE:BEHIND]: at each depth that it has and in both shapes.
measure() {
  local depth shape bytes least
  if [ "$1" != copy ] && [ -n "$chosen" ] && [[ " $chosen " != *" $1 "* ]]; then return; fi
  for depth in byte short; do
    if [ "$1:$depth" = posterise:short ]; then continue; fi
    bytes=8294400
    if [ $depth = short ]; then bytes=16588800; fi
    printf '%-11s %-20s %-5s' "$1" "$2" $depth
    for shape in whole tiles; do
      if [ "$1:$shape" = autogain:tiles ]; then continue; fi
      least=$(cost "$1:$depth:$shape:$2${3:+:$3}" 4 200)
      costs[$1:$2:$depth:$shape]=$least
      printf ' %5d.%03d ms %6d MB/s %7s' $((least / 1000000)) $((least / 1000 % 1000)) $((bytes * 1000 / least)) \
        "$(so_many $least "${costs[copy::$depth:$shape]}")"
    done
    printf '\n'
  done
}

# beside NAME NUMBERS OTHERS: how many times the first numbers take what the others take.
beside() {
  local depth shape more
  if [ -z "${costs[$1:$2:byte:whole]:-}" ]; then return; fi
  for depth in byte short; do
    for shape in whole tiles; do
      more=$(so_many "${costs[$1:$2:$depth:$shape]}" "${costs[$1:$3:$depth:$shape]}")
      echo "$1 $2 beside $3, $depth, $shape: $more times"
    done
  done
}

# rows FROM WIDTH STRIP: rows in three strips of this width, and in one piece.
rows() {
  local one three
  if [ -n "$chosen" ] && [[ " $chosen " != *" row "* ]]; then return; fi
  one=$(cost "row:$1:$2:1920" 1000000 10000000)
  three=$(cost "row:$1:$2:$3" 1000000 10000000)
  echo "a row of $2 pixels: $one ns of one piece, $three ns across three pieces, $(so_many "$three" "$one") times"
}

# many STRIP HEIGHT: rows of 1,920 pixels over pieces of this width and height, and over pieces as wide with all rows.
many() {
  local all some
  if [ -n "$chosen" ] && [[ " $chosen " != *" row "* ]]; then return; fi
  all=$(cost "row:0:1920:$1:1080" 100000 1000000)
  some=$(cost "row:0:1920:$1:$2" 100000 1000000)
  echo "a row across $((1920 / $1)) pieces: $all ns, and of $((1920 / $1 * 1080 / $2)) pieces that the row is asked of: $some ns"
}

# reduced SCALE: a frame to a part of its size, at each depth.
reduced() {
  local depth least
  if [ -n "$chosen" ] && [[ " $chosen " != *" reduce "* ]]; then return; fi
  for depth in byte short; do
    least=$(cost "reduce:$depth:$1" 4 200)
    echo "a $depth frame reduced by $1: $((least / 1000)) us, $(so_many $least "${costs[copy::$depth:whole]}") times a copy of it"
  done
}

chosen=$*
uptime
echo 'effect, its numbers and depth; of a whole frame, and of tiles, ms, MB a second and how many times a copy'
# The numbers are those of the parameters in their order.
measure copy ''
measure solid 65536,32768,0,16384
measure checker 7,32768
measure ramp 0
measure ramp 1
measure grain 5,32768
measure invert ''
measure gain 100000
measure premult ''
measure unpremult ''
measure shuffle 3,2,1,0
measure saturation 100000
measure posterise 5
measure boxblur 2,2
measure boxblur 64,64
measure erode 2
measure erode 32
measure dilate 2
measure dilate 32
measure convolve3 1,2,1,2,4,2,1,2,1,16
measure crop 1,1,1918,1078
measure translate 65536,65536
measure translate 32768,32768
measure mirror 0
measure mirror 1
measure timeoffset 1 1
measure frameblend 1 1:1
measure framediff 1 1
measure echo 2,1 2
measure dissolve 30000
measure wipe 30000
for operation in 0 1 2 3 4 5 6; do measure merge $operation; done
measure keymix ''
# It renders no tiles.
measure autogain ''
beside boxblur 64,64 2,2
beside erode 32 2
beside dilate 32 2
rows 0 1920 640
rows 63 66 64
many 384 10
many 64 60
for scale in 2 4 8; do reduced $scale; done
uptime
