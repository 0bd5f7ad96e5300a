#!/usr/bin/env bash
# parallel.sh GRAPH SIZE [HOST..]: renders the pieces of a graph's range by GNU parallel, one a processor at a time, here or
# on the hosts, which share this folder. `render.log` keeps which are done: the same call again renders only those that
# failed or weren't done. It wants GNU parallel (on Debian: apt-get install parallel); where it isn't installed, it says so.
set -eu
here=$(cd "$(dirname "${BASH_SOURCE[0]}")" && pwd)

if ! parallel --version 2>/dev/null | grep -q "^GNU parallel"; then
  echo "parallel.sh: GNU parallel isn't installed (on Debian: apt-get install parallel)"
  exit 0
fi
hosts=$(IFS=,; echo "${*:3}")
"$here/chunks.sh" "$1" "$2" |
  parallel --colsep ' ' --joblog render.log --resume-failed --retries 3 --workdir "$PWD" ${hosts:+--sshlogin "$hosts"} \
    "$here/piece.sh" "$1" {1} {2}
