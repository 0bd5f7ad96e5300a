#!/usr/bin/env bash
# speed.sh: the cost of one ask of a core for a kept key, of one ask of a directory, which is a turn too, and the same
# among four threads; of one taking and giving of a turn, and the same in eight threads on one slot; of one draw of
# a number; and of the regions of an HD frame through twelve nodes with what each tile of each needs, in nanoseconds;
# and how much faster two and four workers do work that shares nothing. It times `fx_speed` with a large count and with
# 0.
set -eu
here=$(cd "$(dirname "${BASH_SOURCE[0]}")/.." && pwd)
program=$here/crates/fx_speed/out/fx_speed

if [ ! -x "$program" ]; then
  echo "speed.sh: build the program first: rt run, in crates/fx_speed" >&2
  exit 2
fi

# The nanoseconds that the program takes with these words.
took() {
  local from to
  from=$(date +%s%N)
  "$program" "$@" >/dev/null
  to=$(date +%s%N)
  echo $((to - from))
}

# measure WORD COUNT TIMES WHAT: the program does COUNT of them, and each counts for so many.
measure() {
  local empty full
  empty=$(took "$1" 0)
  full=$(took "$1" "$2")
  echo "$4: $(((full - empty) / ($2 * $3))) ns"
}

# speed_up WORD COUNT: how much faster the word's workers do so many pieces of work than one does.
speed_up() {
  local one many
  one=$(($(took one "$2") - $(took one 0)))
  many=$(($(took "$1" "$2") - $(took "$1" 0)))
  echo "$2 pieces of work by $1 workers: $((many / 1000000)) ms, by one $((one / 1000000)) ms, $((100 * one / many))% of its speed"
}

measure kept 10000000 1 'an ask for one of 4,096 kept keys'
measure shared 10000000 1 'an ask of a directory for one of 4,096 kept keys, alone'
measure sharing 1000000 4 'an ask of a directory for one of 4,096 kept keys, among four threads'
measure turn 10000000 1 'a turn taken and given, alone'
measure turns 1000000 8 'a turn taken and given, among eight threads on one slot'
measure draw 10000000 1 'a number drawn, alone'
measure regions 100 1 'the regions of an HD frame of twelve nodes, and what each tile of each needs'
speed_up two 50000
speed_up four 50000
