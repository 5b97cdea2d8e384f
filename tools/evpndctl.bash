# Completion of evpndctl for bash: `source tools/evpndctl.bash`. The words are those of `evpndctl help`, the edges those of
# `evpndctl edges`, queried at the socket that the line names; without an answer only evpndctl's own.

_evpndctl() {
  local word=${COMP_WORDS[COMP_CWORD]} before=${COMP_WORDS[COMP_CWORD-1]} at=1
  COMPREPLY=()
  if [ "$before" = --control ]; then
    mapfile -t COMPREPLY < <(compgen -f -- "$word")
    return
  fi
  if [[ $word == -* ]]; then
    mapfile -t COMPREPLY < <(compgen -W "--control --help --json --mac --network --version" -- "$word")
    return
  fi
  local asks=("${COMP_WORDS[0]}")
  if [ "${COMP_WORDS[1]}" = --control ] && [ "$COMP_CWORD" -gt 2 ]; then
    asks+=(--control "${COMP_WORDS[2]}")
    at=3
  fi
  local place=$((COMP_CWORD - at)) words=
  case $place in
    0) words="$({ "${asks[@]}" edges; "${asks[@]}" help; } 2> /dev/null < /dev/null | awk '$1 != "E" {print $1}') watch metrics records" ;;
    1) [[ ${COMP_WORDS[at]} =~ ^[0-9]+$ ]] && words=$("${asks[@]}" help 2> /dev/null < /dev/null | awk '$1 == "E" {print $2}') ;;
  esac
  [ "$at $place" = "1 0" ] && words+=" --control"
  mapfile -t COMPREPLY < <(compgen -W "$words" -- "$word" | sort -u)
}

complete -F _evpndctl evpndctl
