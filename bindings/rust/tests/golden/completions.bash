# dtparse: completions for bash
_dtparse() {
  local word=${COMP_WORDS[COMP_CWORD]} before=${COMP_WORDS[COMP_CWORD - 1]}
  if [[ $word == = ]]; then word=; elif [[ $before == = ]]; then before=${COMP_WORDS[COMP_CWORD - 2]}; fi
  case $before in
    --at) mapfile -t COMPREPLY < <(compgen -W '' -- "$word"); return ;;
    --entry) mapfile -t COMPREPLY < <(compgen -W 'SourceFile ReferenceNoamp PropValues Cells' -- "$word"); return ;;
    --color) mapfile -t COMPREPLY < <(compgen -W 'auto always never' -- "$word"); return ;;
    --print) mapfile -t COMPREPLY < <(compgen -W 'man bash zsh fish' -- "$word"); return ;;
  esac
  if [[ $word == -* ]]; then
    mapfile -t COMPREPLY < <(compgen -W '--reports --nodes --tree --at --lines --json --quiet -q --strict --entry --color --print --version -V --help -h' -- "$word")
  else
    mapfile -t COMPREPLY < <(compgen -d -- "$word"; compgen -f -X '!*.dts' -- "$word"; compgen -f -X '!*.dtsi' -- "$word"; compgen -f -X '!*.rows' -- "$word")
  fi
}
complete -o filenames -F _dtparse dtparse
