# Completion of ofxr and ./ofxr in bash: modes, options, and graphs (*.json). Read it in a shell or in ~/.bashrc:
#   source examples/completion/ofxr.bash

_ofxr() {
  local word=${COMP_WORDS[COMP_CWORD]} at one mode='' count=0 given=' '
  COMPREPLY=()

  # The words before: which options are given, whether one waits for its number, the mode, and how many others.
  # Bash hands --first=5 over as three words.
  local waits=''
  for ((at = 1; at < COMP_CWORD; at++)); do
    one=${COMP_WORDS[at]}
    case $one in
      --first | --last | --tile | --cache | --workers | --ahead | --scale) given+="$one " waits=yes ;;
      --*=*) given+="${one%%=*} " ;;
      =) ;;
      *)
        if [ -n "$waits" ]; then
          waits=''
        else
          [ "$count" -eq 0 ] && mode=$one
          count=$((count + 1))
        fi
        ;;
    esac
  done
  # A number: there is nothing to complete.
  [ -n "$waits" ] && return

  if [[ $word == -* ]]; then
    local option options=''
    for option in --first --last --tile --cache --workers --ahead --scale; do
      [[ $given == *" $option "* ]] || options+="$option "
    done
    mapfile -t COMPREPLY < <(compgen -W "$options" -- "$word")
  elif [ "$count" -eq 0 ]; then
    mapfile -t COMPREPLY < <(compgen -W 'render takes plan check bench migrate' -- "$word")
  elif [ "$count" -eq 1 ] && [ "$mode" != bench ]; then
    compopt -o filenames 2>/dev/null
    mapfile -t COMPREPLY < <(compgen -d -- "$word"; compgen -f -X '!*.json' -- "$word")
  fi
}

complete -F _ofxr ofxr
