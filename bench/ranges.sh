#!/usr/bin/env bash
# ranges.sh [HELD [DISTINCT]]: how much memory long ranges of HD frames take, of 1,920 by 1,080 pixels, r, g, b and a in
# bytes: HELD frames (2,000 where it isn't given) over 24 files, the last of which is held, and DISTINCT frames (300) each of
# a file of its own. Each output frame blends three source frames and is made brighter, by four workers. It prints the peak
# of memory beside what the frames still wanted (three), the tiles that are kept, two frames and 64 MB come to. The workers
# share one heap, as `ofxr` has it, unless MALLOC_ARENA_MAX is given. The files are in memory, and what is rendered goes to
# /dev/null. It works in a folder of its own there.
set -eu
here=$(cd "$(dirname "${BASH_SOURCE[0]}")/.." && pwd)
program=$here/crates/ofxr/out/ofxr
held=${1:-2000}
distinct=${2:-300}
export MALLOC_ARENA_MAX=${MALLOC_ARENA_MAX:-1}

if [ ! -x "$program" ] || [ ! -x /usr/bin/time ]; then
  echo "ranges.sh: build the program first (rt run, in crates/ofxr), and install time" >&2
  exit 2
fi

folder=$(mktemp -d "$([ -d /dev/shm ] && echo /dev/shm || echo /tmp)/ranges.XXXXXX")
trap 'rm -rf "$folder"' EXIT
cd "$folder"

bytes=$((1920 * 1080 * 4))
head -c $((bytes + distinct)) /dev/urandom >noise

# plates COUNT: so many source frames, each other than the rest.
plates() {
  local frame
  for ((frame = 0; frame < $1; frame++)); do
    printf 'P7\nWIDTH 1920\nHEIGHT 1080\nDEPTH 4\nMAXVAL 255\nTUPLTYPE RGB_ALPHA\nENDHDR\n' >plate.$frame.pam
    tail -c +$((frame + 1)) noise | head -c $bytes >>plate.$frame.pam
  done
}

# measure WHAT FILES FRAMES: the peak of memory of a range of so many frames over so many files.
measure() {
  local frame last=$(($3 - 1)) peak bound
  for ((frame = 0; frame < $3; frame++)); do ln -sf /dev/null out.$frame.pam; done
  {
    echo '{"ofxr":1,"project":{"width":1920,"height":1080,"depth":"byte","components":"RGBA"},'
    echo "\"output\":{\"node\":\"gain\",\"file\":\"out.#.pam\",\"format\":\"RGB_ALPHA\"},\"range\":{\"first\":0,\"last\":$last},"
    echo "\"nodes\":[{\"name\":\"plate\",\"source\":\"plate.#.pam\",\"first\":0,\"last\":$(($2 - 1)),\"outside\":\"hold\"},"
    echo '{"name":"blend","effect":"frameblend","clips":{"Source":"plate"},"params":{"radius":1}},'
    echo '{"name":"gain","effect":"gain","clips":{"Source":"blend"},"params":{"gain":"1.25"}}]}'
  } >g.json
  peak=$(($(/usr/bin/time -f %M "$program" render g.json 2>&1 >/dev/null) * 1024 / 1000000))
  # Three frames, 4,096 tiles of 64 by 64 pixels, two frames, and 64 MB.
  bound=$(((5 * bytes + 4096 * 64 * 64 * 4) / 1000000 + 64))
  printf '%-44s %5d MB at most, %d MB allowed\n' "$1" "$peak" "$bound"
}

plates 24
measure "$held frames over 24 files" 24 "$held"
plates "$distinct"
measure "$distinct frames of $distinct files" "$distinct" "$distinct"
