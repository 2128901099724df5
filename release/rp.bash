# Completion of rp, rp-wide and rp-panel in bash: the commands, the options of each, and the names of files.
_rp() {
  local word=${COMP_WORDS[COMP_CWORD]} before=${COMP_WORDS[COMP_CWORD - 1]} options=
  COMPREPLY=()
  if [ "$COMP_CWORD" -eq 1 ]; then
    # commands: made by tools/make/catalogue
    mapfile -t COMPREPLY < <(compgen -W "pairs analyse certify check demand welfare utility random checkrandom patches trial menus pump cost power" -- "$word")
    # end of commands
    # words of rp-wide: made by tools/make/catalogue
    case ${COMP_WORDS[0]} in *rp-wide) mapfile -t -O "${#COMPREPLY[@]}" COMPREPLY < <(compgen -W "fit checkfit --help --version" -- "$word") ;; esac
    # end of words of rp-wide
    return
  fi
  case ${COMP_WORDS[1]} in
    # options: made by tools/make/catalogue
    demand | welfare | fit) options="--json" ;;
    random) options="--per --json" ;;
    checkrandom | patches | menus) options="--per" ;;
    trial) return ;;
    # end of options
  esac
  # options of rp-wide: made by tools/make/catalogue
  case ${COMP_WORDS[0]},${COMP_WORDS[1]} in *rp-wide,random) options="$options --steps" ;; esac
  # end of options of rp-wide
  case ${COMP_WORDS[0]} in *rp-wide) options="$options --help" ;; esac
  if [[ $before = --per || $before = --steps ]]; then
    return
  elif [[ $word == -* ]]; then
    mapfile -t COMPREPLY < <(compgen -W "$options" -- "$word")
  else
    compopt -o filenames 2>/dev/null
    mapfile -t COMPREPLY < <(compgen -f -- "$word")
  fi
}
complete -F _rp rp ./rp rp-wide ./rp-wide
_rp_panel() {
  local word=${COMP_WORDS[COMP_CWORD]} before=${COMP_WORDS[COMP_CWORD - 1]}
  COMPREPLY=()
  if [[ $word == -* ]]; then
    # options of panels: made by tools/make/catalogue
    mapfile -t COMPREPLY < <(compgen -W "--id --keep --pump --power --intercepts --demand --welfare --wide --help --version" -- "$word")
    # end of options of panels
  elif [[ $before != --id && $before != --keep && $before != --power ]]; then
    compopt -o filenames 2>/dev/null
    mapfile -t COMPREPLY < <(compgen -f -- "$word")
  fi
}
complete -F _rp_panel rp-panel ./rp-panel
