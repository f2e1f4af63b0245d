# Completion of cif's words in bash: tasks, the options that go with each, and files. `make install` lays it where bash looks for it; else: . tool/cif.bash
_cif() {
  local word=${COMP_WORDS[COMP_CWORD]} before=${COMP_WORDS[COMP_CWORD - 1]} task=${COMP_WORDS[1]} options=
  COMPREPLY=()
  if ((COMP_CWORD == 1)); then
    mapfile -t COMPREPLY < <(compgen -W "check flat list plot summary show why compare join -h --help -V --version" -- "$word")
    return
  fi
  case $before in
  --window | --layers | --size | --at) return ;; # numbers and names, which nobody knows here
  esac
  case $task in
  check) options="-q --json --strict" ;;
  flat | list | summary | join) options="-o --strict" ;;
  plot) options="-o --strict --window --layers --size" ;;
  show) options="-o --json --strict" ;;
  why) options="-o --json --at" ;;
  compare) options="--any-order" ;;
  esac
  case $word in
  -*) mapfile -t COMPREPLY < <(compgen -W "$options" -- "$word") ;;
  *) mapfile -t COMPREPLY < <(compgen -f -- "$word") ;;
  esac
}
complete -o filenames -F _cif cif
