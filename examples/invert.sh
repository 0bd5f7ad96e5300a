#!/usr/bin/env bash
# invert.sh: makes three small frames by hand, renders the graph of examples/invert over them, which
# inverts each, and shows the last frame and what it became. It works in a folder of its own, examples/invert.
set -eu
here=$(cd "$(dirname "${BASH_SOURCE[0]}")/.." && pwd)
cd "$here/examples/invert"

# Each frame has 4 by 3 pixels of red, green, blue and alpha, the top row first.
header='P7\nWIDTH 4\nHEIGHT 3\nDEPTH 4\nMAXVAL 255\nTUPLTYPE RGB_ALPHA\nENDHDR\n'
red='\377\000\000\377'
white='\377\377\377\377'
half='\012\310\036\200' # 10, 200, 30 and 128
clear='\000\000\000\000'

printf "$header$red$red$red$red$white$white$white$white$half$half$half$half" >frame.00.pam
printf "$header$white$red$red$red$red$white$white$white$white$half$half$half" >frame.01.pam
printf "$header$red$white$half$clear$clear$clear$clear$clear$half$half$half$half" >frame.02.pam

"$here/ofxr" render g.json

for file in frame.02.pam negative.02.pam; do
  echo "$file:"
  head -n 7 "$file"
  # A line for each row of the picture: 16 bytes are 4 pixels.
  tail -n +8 "$file" | od -An -v -t u1 -w16
done
