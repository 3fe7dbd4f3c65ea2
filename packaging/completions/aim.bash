# bash completion for aim
_aim() {
  local word=${COMP_WORDS[COMP_CWORD]}
  case $COMP_CWORD in
    1) COMPREPLY=($(compgen -W 'replay replay-json session chart drive grid mail shards generate help version -v' -- "$word")) ;;
    2)
      case ${COMP_WORDS[1]} in
        help) COMPREPLY=($(compgen -W 'replay replay-json session chart drive grid mail shards generate help version' -- "$word")) ;;
        -v) COMPREPLY=($(compgen -W 'replay replay-json session chart drive grid mail shards generate' -- "$word")) ;;
        drive | grid | mail | shards) COMPREPLY=($(compgen -W '1 2 4 8 16 32 64 --help' -- "$word")) ;;
        replay | replay-json | session | chart | generate) COMPREPLY=($(compgen -W '--help' -- "$word")) ;;
      esac
      ;;
    4) [ "${COMP_WORDS[1]}" != generate ] || COMPREPLY=($(compgen -W 'script' -- "$word")) ;;
  esac
}
complete -o default -F _aim aim
