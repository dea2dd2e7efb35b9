# Completion of mvt for bash.
_mvt() {
  local word=${COMP_WORDS[COMP_CWORD]}
  COMPREPLY=()
  if [ "$COMP_CWORD" = 1 ]; then
    mapfile -t COMPREPLY < <(compgen -W "check explain lint fields show draw rewrite mend extract help --version" -- "$word")
  elif [[ ${COMP_WORDS[1]} == check || ${COMP_WORDS[1]} == explain || ${COMP_WORDS[1]} == lint ]]; then
    mapfile -t COMPREPLY < <(compgen -f -- "$word")
  fi
}
complete -o filenames -F _mvt mvt
