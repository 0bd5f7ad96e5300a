#!/usr/bin/env bash
# piece.sh GRAPH FIRST LAST: renders a piece of a graph's range. Its exit status says what an engine should do: 0 done,
# where the report alone failed (7) too; 75 (EX_TEMPFAIL) try again, where a read, a write or memory failed (4 to 6), or
# the run was killed; and else the status of `ofxr`: 1 to 3, words, a graph or a frame that is refused, or 132, a program
# built for a newer processor. No second try mends these.
here=$(cd "$(dirname "${BASH_SOURCE[0]}")/../.." && pwd)

"$here/ofxr" render "$1" --first "$2" --last "$3"
status=$?
case $status in
0 | 7) exit 0 ;;
1 | 2 | 3 | 132) exit $status ;;
*) exit 75 ;;
esac
