# shellcheck shell=bash
# Completes the words and options of lowfare in bash: source launch/completion/lowfare.bash

# The options that a command takes.
_lowfare_options() {
  case $1 in
    search) echo --best --budget --at ;;
    check) echo --best --at ;;
    make) echo --seed --size --summary ;;
    calendar) echo --outs --backs --budget --at ;;
    verdict) echo --at ;;
    serve) echo --best --budget ;;
  esac
}

_lowfare() {
  local word=${COMP_WORDS[COMP_CWORD]} command='' given='' before
  local -a offered
  COMPREPLY=()
  for before in "${COMP_WORDS[@]:1:COMP_CWORD-1}"; do
    case $before in
      search | check | make | calendar | verdict | serve) command=$command$before ;;
      --*) given+=" ${before%%=*} " ;;
    esac
  done
  case ${COMP_WORDS[COMP_CWORD - 1]} in
    # A number is due.
    --summary) ;;
    --* | =) return ;;
  esac
  if [ -z "$command" ]; then
    offered=(search check make calendar verdict serve)
  else
    for before in $(_lowfare_options "$command"); do
      [[ $given == *" $before "* ]] || offered+=("$before")
    done
  fi
  mapfile -t COMPREPLY < <(compgen -W "${offered[*]-}" -- "$word")
}

complete -o default -F _lowfare lowfare ./try
