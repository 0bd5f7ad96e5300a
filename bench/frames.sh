#!/usr/bin/env bash
# frames.sh [RUNS [FRAMES]]: what a render of HD frames costs, each the best of 3 runs or of RUNS: 24 frames, or FRAMES, of
# 1,920 by 1,080 pixels, r, g, b and a in bytes. By one worker it renders one invert and five, a graph of seven effects up
# to each of its nodes (what one node adds is its share), and the whole graph in tiles of four sides; and the whole graph by
# one, two and four workers. It prints microseconds a frame and the peak of memory. The frames are read from and written to
# files in memory. It works in a folder of its own there.
set -eu
here=$(cd "$(dirname "${BASH_SOURCE[0]}")/.." && pwd)
program=$here/crates/ofxr/out/ofxr
runs=${1:-3}
frames=${2:-24}

if [ ! -x "$program" ]; then
  echo "frames.sh: build the program first: rt run, in crates/ofxr" >&2
  exit 2
fi

folder=$(mktemp -d "$([ -d /dev/shm ] && echo /dev/shm || echo /tmp)/frames.XXXXXX")
trap 'rm -rf "$folder"' EXIT
cd "$folder"

# The frames: a header, and bytes of no meaning, other ones in each.
bytes=$((1920 * 1080 * 4))
head -c $((bytes + frames)) /dev/urandom >noise
for ((frame = 0; frame < frames; frame++)); do
  printf 'P7\nWIDTH 1920\nHEIGHT 1080\nDEPTH 4\nMAXVAL 255\nTUPLTYPE RGB_ALPHA\nENDHDR\n' >plate.$frame.pam
  tail -c +$((frame + 1)) noise | head -c $bytes >>plate.$frame.pam
done
rm noise

# graph OUTPUT NODES: a graph of these nodes over the frames, rendered at one of them.
graph() {
  local last=$((frames - 1))
  echo '{"ofxr":1,"project":{"width":1920,"height":1080,"depth":"byte","components":"RGBA"},'
  echo "\"output\":{\"node\":\"$1\",\"file\":\"out.#.pam\",\"format\":\"RGB_ALPHA\"},\"range\":{\"first\":0,\"last\":$last},"
  echo "\"nodes\":[{\"name\":\"plate\",\"source\":\"plate.#.pam\",\"first\":0,\"last\":$last,\"outside\":\"hold\"}$2]}"
}

# node NAME EFFECT CLIPS PARAMS: the text of a node.
node() {
  echo ",{\"name\":\"$1\",\"effect\":\"$2\",\"clips\":{$3},\"params\":{$4}}"
}

# measure WHAT OPTION..: the best of some renders of g.json with these options, and the memory of one.
measure() {
  local least=0 from to run what=$1
  shift
  for ((run = 0; run < runs; run++)); do
    from=$(date +%s%N)
    "$program" render g.json "$@" >/dev/null
    to=$(date +%s%N)
    if [ $least -eq 0 ] || [ $((to - from)) -lt $least ]; then least=$((to - from)); fi
  done
  printf '%-28s %8d microseconds a frame' "$what" $((least / frames / 1000))
  if [ -x /usr/bin/time ]; then
    printf ', %d MB at most' $(($(/usr/bin/time -f %M "$program" render g.json "$@" 2>&1 >/dev/null) / 1000))
  fi
  echo
}

inverts() {
  local k before=plate
  for ((k = 1; k <= $1; k++)); do
    node i$k invert "\"Source\":\"$before\"" ''
    before=i$k
  done
}

graph plate '' >g.json
measure 'the frames alone' --workers 1
for count in 1 5; do
  graph i$count "$(inverts $count)" >g.json
  measure "$count inverts" --workers 1
done

nodes=$(
  node blur boxblur '"Source":"plate"' '"rx":2,"ry":2'
  node gain gain '"Source":"blur"' '"gain":"1.2"'
  node colour saturation '"Source":"gain"' '"amount":"1.5"'
  node blend frameblend '"Source":"plate"' '"radius":1'
  node fade dissolve '"SourceFrom":"colour","SourceTo":"blend"' "\"Transition\":{\"keys\":[[0,0],[$((frames - 1)),1]]}"
  node moved translate '"Source":"fade"' '"dx":"10.25"'
  node over merge '"A":"moved","B":"plate"' ''
)
for output in blur gain colour blend fade moved over; do
  graph $output "$nodes" >g.json
  measure "up to $output" --workers 1
done
for side in 16 64 256 1024; do
  measure "all, tiles of $side" --workers 1 --tile $side
done
for workers in 1 2 4; do
  measure "all, by $workers workers" --workers $workers
done
