#!/usr/bin/env bash
# takes.sh [RUNS [FRAMES]]: what takes of HD frames cost, each the best of 3 runs or of RUNS: one frame, or up to eight,
# of 1,920 by 1,080 pixels, r, g, b and a in bytes, of a graph of twelve nodes, by four workers, with room for all
# tiles. It tells how many tiles land at each take, how many it finds that were kept, and its microseconds a frame: of
# the graph as it is written, and of takes behind it that edit one node, from the last to the first. The frames are read
# from and written to files in memory. It works in a folder of its own there.
set -eu
here=$(cd "$(dirname "${BASH_SOURCE[0]}")/.." && pwd)
program=${OFXR:-$here/crates/ofxr/out/ofxr}
runs=${1:-3}
frames=${2:-1}

if [ ! -x "$program" ]; then
  echo "takes.sh: build the program first: rt run, in crates/ofxr" >&2
  exit 2
fi

folder=$(mktemp -d "$([ -d /dev/shm ] && echo /dev/shm || echo /tmp)/takes.XXXXXX")
trap 'rm -rf "$folder"' EXIT
cd "$folder"

# The frames: a header, and bytes of no meaning, other ones in each.
bytes=$((1920 * 1080 * 4))
head -c $((bytes + frames)) /dev/urandom >noise
for ((frame = 0; frame < frames; frame++)); do
  printf 'P7\nWIDTH 1920\nHEIGHT 1080\nDEPTH 4\nMAXVAL 255\nTUPLTYPE RGB_ALPHA\nENDHDR\n' >plate.$frame.pam
  tail -c +$((frame + 1)) noise | head -c $bytes >>plate.$frame.pam
done
rm noise

# node NAME EFFECT CLIPS PARAMS: the text of a node.
node() {
  echo ",{\"name\":\"$1\",\"effect\":\"$2\",\"clips\":{$3},\"params\":{$4}}"
}

last=$((frames - 1))
nodes=$(
  echo "{\"name\":\"plate\",\"source\":\"plate.#.pam\",\"first\":0,\"last\":$last,\"outside\":\"hold\"}"
  node blur boxblur '"Source":"plate"' '"rx":2,"ry":2'
  node gain gain '"Source":"blur"' '"gain":"1.2"'
  node colour saturation '"Source":"gain"' '"amount":"1.5"'
  node blend frameblend '"Source":"plate"' '"radius":1'
  node fade dissolve '"SourceFrom":"colour","SourceTo":"blend"' '"Transition":"0.5"'
  node order shuffle '"Source":"fade"' '"r":"b","b":"r"'
  node moved translate '"Source":"order"' '"dx":"10.25"'
  node squares checker '' ''
  node grain grain '' '"amount":"0.1"'
  node over merge '"A":"moved","B":"squares"' '"operation":"over"'
  node sum merge '"A":"over","B":"grain"' '"operation":"plus"'
)

# graph TAKES: the graph with these takes.
graph() {
  echo '{"ofxr":1,"project":{"width":1920,"height":1080,"depth":"byte","components":"RGBA"},'
  echo '"output":{"node":"sum","file":"out.#.pam","format":"RGB_ALPHA"},'
  echo "\"range\":{\"first\":0,\"last\":$last},\"nodes\":[$nodes],\"takes\":[$1]}"
}

# takes NODE PARAM VALUE..: takes that edit this parameter, one for each value.
takes() {
  local node=$1 param=$2 between='' value
  shift 2
  for value in "$@"; do
    echo "$between{\"file\":\"take.#.pam\",\"edits\":[{\"node\":\"$node\",\"param\":\"$param\",\"value\":$value}]}"
    between=,
  done
}

# count NAME: this number of the last report.
count() {
  tr '\n' ' ' <report | sed "s/.*$1 \([0-9]*\).*/\1/"
}

# run TAKES: the least nanoseconds of some runs of the graph with these takes, in `least`.
run() {
  local from to time
  graph "$1" >g.json
  least=0
  for ((time = 0; time < runs; time++)); do
    from=$(date +%s%N)
    "$program" takes g.json --workers 4 --cache $((8192 * frames)) >report
    to=$(date +%s%N)
    if [ $least -eq 0 ] || [ $((to - from)) -lt $least ]; then least=$((to - from)); fi
  done
}

run ''
first=$least
landed=$(count landed)
hits=$(count hits)
printf '%-24s landed %6d hits %6d, %8d microseconds a frame\n' \
  'as it is written' "$landed" "$hits" $((first / frames / 1000))

# edits NODE PARAM VALUE..: what each of these takes costs.
edits() {
  local many=$(($# - 2))
  run "$(takes "$@")"
  printf '%-24s landed %6d hits %6d, %8d microseconds a frame, %d%% of the first\n' "an edit of $1" \
    $((($(count landed) - landed) / many)) $((($(count hits) - hits) / many)) \
    $(((least - first) / many / frames / 1000)) $((100 * (least - first) / many / first))
}

edits sum operation '"screen"' '"max"' '"min"' '"plus"'
edits grain amount '"0.2"' '"0.3"' '"0.4"' '"0.1"'
edits moved dx '"9.25"' '"8.25"' '"7.25"' '"10.25"'
edits fade Transition '"0.4"' '"0.6"' '"0.3"' '"0.5"'
edits colour amount '"1.4"' '"1.3"' '"1.2"' '"1.5"'
edits blur rx 3 1 4 2
