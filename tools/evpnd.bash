# Completion of evpnd, evpnd-run, evpnd-attach, evpnd-audit, evpnd-bgp and evpnd-records for bash: `source tools/evpnd.bash`. A subcommand's
# options are those that its --help prints.

# Completes with the words, or with files if the word before takes one or none of the words fits.
_evpnd_words() {
  mapfile -t COMPREPLY < <(compgen -W "$1" -- "${COMP_WORDS[COMP_CWORD]}")
  [ ${#COMPREPLY[@]} -gt 0 ] || mapfile -t COMPREPLY < <(compgen -f -- "${COMP_WORDS[COMP_CWORD]}")
}

# Prints the options in a command's help.
_evpnd_options() {
  "$@" --help 2>&1 < /dev/null | grep -oE -- '(^|[[:space:],[])--[a-z][a-z-]*' | grep -oE -- '--[a-z-]+' | sort -u
}

_evpnd() {
  local before=${COMP_WORDS[COMP_CWORD-1]}
  COMPREPLY=()
  case $before in
    --config | --script) mapfile -t COMPREPLY < <(compgen -f -- "${COMP_WORDS[COMP_CWORD]}") ;;
    --originators) ;;
    *)
      if [ "$COMP_CWORD" = 1 ]; then
        _evpnd_words "report migrate check simulate play run serve version help --help"
      else
        _evpnd_words "$(_evpnd_options "${COMP_WORDS[0]}" "${COMP_WORDS[1]}")"
      fi ;;
  esac
}

_evpnd_run() {
  COMPREPLY=()
  if [ "$COMP_CWORD" = 2 ]; then _evpnd_words serve; else mapfile -t COMPREPLY < <(compgen -f -- "${COMP_WORDS[COMP_CWORD]}"); fi
}

# Completes with devices, and after `--` with a command.
_evpnd_attach() {
  COMPREPLY=()
  if [[ " ${COMP_WORDS[*]:0:COMP_CWORD} " == *" -- "* ]]; then
    mapfile -t COMPREPLY < <(compgen -c -f -- "${COMP_WORDS[COMP_CWORD]}")
  else
    mapfile -t COMPREPLY < <(compgen -W "-- $(ls /sys/class/net)" -- "${COMP_WORDS[COMP_CWORD]}")
  fi
}

_evpnd_tool() {
  local words=
  COMPREPLY=()
  case ${COMP_WORDS[COMP_CWORD-1]} in
    --prometheus | --routes | --state | --evpnd | --report | --protos | --socket) ;;
    *)
      words=$(_evpnd_options "${COMP_WORDS[0]}")
      if [ "$COMP_CWORD" = 1 ]; then
        case ${COMP_WORDS[0]##*/} in
          evpnd-audit) words+=" save mac record plot" ;;
          evpnd-records) words+=" make show frr originators" ;;
        esac
      fi ;;
  esac
  _evpnd_words "$words"
}

complete -F _evpnd evpnd
complete -F _evpnd_run evpnd-run
complete -F _evpnd_attach evpnd-attach
complete -F _evpnd_tool evpnd-audit evpnd-bgp evpnd-records
