# Completion of overlay for bash.
_overlay() {
  local word=${COMP_WORDS[COMP_CWORD]} before=${COMP_WORDS[COMP_CWORD-1]} commands="union intersection difference symdifference edges" k given=0
  # --tile=4096 comes in three words.
  if [[ $word == = ]]; then word=; elif [[ $before == = ]]; then before=${COMP_WORDS[COMP_CWORD-2]}; fi
  case $before in
    --tile) COMPREPLY=($(compgen -W "4096 16384 65536 262144 1048576 4194304 16777216 33554432" -- "$word")); return ;;
    --segments) COMPREPLY=($(compgen -W "1048576 10000000 100000000" -- "$word")); return ;;
    --workers) COMPREPLY=($(compgen -W "1 2 4 8 16 32 64" -- "$word")); return ;;
  esac
  for ((k = 1; k < COMP_CWORD; k++)); do
    [[ " $commands faces noded " == *" ${COMP_WORDS[k]} "* ]] && given=1
  done
  ((COMP_CWORD == 1)) && commands+=" faces noded"
  if [[ $word == -* ]]; then
    COMPREPLY=($(compgen -W "--tile --workers --segments --report --covered --areas --help" -- "$word"))
  elif ((given)); then
    compopt -o default
    COMPREPLY=()
  else
    COMPREPLY=($(compgen -W "$commands" -- "$word"))
  fi
}
complete -F _overlay overlay
