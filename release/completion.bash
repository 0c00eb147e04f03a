# Completion of the words of `redo` in bash.
_redo() {
  local word=${COMP_WORDS[COMP_CWORD]} at=1
  [ "${COMP_WORDS[1]}" != -C ] || at=3
  if [ "$COMP_CWORD" = 2 ] && [ "$at" = 3 ] || [ "$COMP_CWORD" = $((at + 1)) ] && [[ ${COMP_WORDS[at]} = @(backup|shell) ]]; then
    mapfile -t COMPREPLY < <(compgen -d -- "$word")
  elif [ "$COMP_CWORD" = "$at" ]; then
    mapfile -t COMPREPLY < <(compgen -W "init run dump demo upgrade ship follow backup shell help --version --help -C" -- "$word")
  elif [ "${COMP_WORDS[at]}" = run ]; then
    mapfile -t COMPREPLY < <(compgen -W "--tend --help" -- "$word")
  elif [ "${COMP_WORDS[at]}" = follow ]; then
    mapfile -t COMPREPLY < <(compgen -W "--same --help" -- "$word")
  elif [[ ${COMP_WORDS[at]} = @(init|upgrade) ]]; then
    mapfile -t COMPREPLY < <(compgen -W "--pages --help" -- "$word")
  elif [ "${COMP_WORDS[at]}" = demo ]; then
    mapfile -t COMPREPLY < <(compgen -W "--seed --steps --help" -- "$word")
  fi
}
complete -F _redo redo
