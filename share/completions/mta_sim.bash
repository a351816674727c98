# completion of mta_sim for bash
_mta_sim() {
  local current=${COMP_WORDS[COMP_CWORD]}
  if [ "$COMP_CWORD" -eq 1 ]; then
    mapfile -t COMPREPLY < <(compgen -W 'words asm list run threads debug --help --version' -- "$current")
  elif [ "${COMP_WORDS[1]}" = words ] || { [ "${COMP_WORDS[1]}" = threads ] && [ "$COMP_CWORD" -eq 3 ]; }; then
    COMPREPLY=()
  else
    # a folder gets a slash and no blank, and a name with blanks is quoted
    compopt -o filenames 2>/dev/null
    mapfile -t COMPREPLY < <(compgen -f -- "$current")
  fi
}
complete -F _mta_sim mta_sim
