# Completion of amrgate for bash: the command, the options that don't stand yet, and their values where they are few.
_amrgate() {
  local word=${COMP_WORDS[COMP_CWORD]} before=${COMP_WORDS[COMP_CWORD - 1]} name given names=() left=()
  COMPREPLY=()
  if ((COMP_CWORD == 1)); then
    mapfile -t COMPREPLY < <(compgen -W "record stream convert answer list trial --help --version" -- "$word")
    return
  fi
  case ${COMP_WORDS[1]} in
    record) names=(--codec --channels --fmtp --strict --pt --window --reach --max-blocks --limit) ;;
    stream) names=(--codec --channels --fmtp --pt --blocks --length --repeat --skip --cmr --ssrc --seq --ts --limit) ;;
    convert)
      names=(--codec --channels --fmtp --strict --pt --window --reach --max-blocks --limit)
      names+=(--to-fmtp --to-pt --blocks --length --repeat --skip --cmr --ssrc --seq --ts)
      ;;
    answer) names=(--codec --channels --modes --crc --sorting --interleaving --port --limit) ;;
    list) names=(--codec --channels --fmtp --strict --pt --max-blocks --show --start --limit) ;;
    trial) names=(--codec --count --seed --channels --fmtp --window --reach --blocks --length --repeat --skip) ;;
    *) return ;;
  esac
  if ((COMP_CWORD % 2 == 1)); then
    case $before in
      --codec) left=(AMR AMR-WB) ;;
      --channels) left=(1 2 3 4 5 6) ;;
      --strict | --skip | --crc | --sorting) left=(0 1) ;;
      --show) left=(frames bits) ;;
    esac
  else
    given=" ${COMP_WORDS[*]:2:COMP_CWORD-2} "
    for name in "${names[@]}"; do
      [[ $given == *" $name "* ]] || left+=("$name")
    done
  fi
  mapfile -t COMPREPLY < <(compgen -W "${left[*]}" -- "$word")
}
complete -F _amrgate amrgate
