# Completion of overlay-gis for bash.
_overlay_gis() {
  local word=${COMP_WORDS[COMP_CWORD]} before=${COMP_WORDS[COMP_CWORD-1]} verb=${COMP_WORDS[1]} options k
  local out="--out --layer --append --overwrite" grid="--grid --origin --system" most="--segments" operations="union intersection difference symdifference"
  # --grid=0.1 comes in three words.
  if [[ $word == = ]]; then word=; elif [[ $before == = ]]; then before=${COMP_WORDS[COMP_CWORD-2]}; fi
  case $before in
    --grid) COMPREPLY=($(compgen -W "0.0001 0.001 0.01 0.1 1" -- "$word")); return ;;
    --engine) COMPREPLY=($(compgen -W "dask" -- "$word")); return ;;
    --ids) COMPREPLY=($(compgen -W "numbers none" -- "$word")); return ;;
    --zooms | --buffer | --simplify | --small | --full | --only | --tile-limit) return ;;
    --origin | --system | --title | --scheduler | --memory | --workers | --keep | --keep-a | --keep-b | --by | --layer | --segments | --gap-width | --gap-area | --sliver-width) return ;;
  esac
  # An operation is offered once, and where no file is wanted.
  [[ $verb == run && $before != -o && $before != --out ]] || operations=
  for ((k = 2; k < COMP_CWORD; k++)); do
    [[ " $operations " == *" ${COMP_WORDS[k]} "* ]] && operations=
  done
  case $verb in
    run) options="$out --parity --polygons-only --keep-a --keep-b $grid $most --engine --scheduler --dir --memory --workers" ;;
    faces) options="$out --parts --polygons-only --keep-a --keep-b --keep --by --pairs $grid $most" ;;
    dissolve) options="$out --by --parts --polygons-only $grid $most" ;;
    check) options="$out --json --report --gap-width --gap-area --sliver-width $grid $most" ;;
    tiles) options="--out --overwrite --zooms --keep --by --ids --buffer --simplify --small --full --only --changed --tile-limit --system $most --workers" ;;
    to-grid) options="--out --frame --dissolve --polygons-only $grid" ;;
    from-grid) options="$out --frame" ;;
    show) options="--out --title" ;;
    explain) options="" ;;
    *) options="--version" ;;
  esac
  if [[ $word == -* ]]; then
    COMPREPLY=($(compgen -W "$options --help" -- "$word"))
  elif ((COMP_CWORD == 1)); then
    COMPREPLY=($(compgen -W "run faces dissolve check tiles to-grid from-grid show explain" -- "$word"))
  elif [[ $operations ]]; then
    COMPREPLY=($(compgen -W "$operations" -- "$word"))
  else
    compopt -o default
    COMPREPLY=()
  fi
}
complete -F _overlay_gis overlay-gis
