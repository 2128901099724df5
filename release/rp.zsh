#compdef rp rp-wide rp-panel
# Completion of rp, rp-wide and rp-panel in zsh. Made by tools/make/catalogue.
_rp_commands() {
  local -a commands=(
    'pairs:The first two observations of a table that contradict each other'
    'analyse:The verdicts on a table, with their evidence'
    'certify:The verdicts on a table with their evidence, as a certificate'
    'check:The checker'\''s verdict on a certificate on a table'
    'demand:Demand at new prices that a table supports'
    'welfare:The bounds on the money metric of a table'\''s observations at new prices'
    'utility:The utility of bundles under the numbers that a table gives'
    'random:Whether rational types make the choices from budgets'
    'checkrandom:The checker'\''s verdict on a certificate on choices from budgets'
    'patches:The patches that choices from budgets fall in'
    'trial:The verdicts on the trial table of a seed'
    'menus:Whether mixtures of strict orders make the choices from menus'
    'pump:The greatest money pump ratio of a table'
    'cost:The axioms of production on a technology, and the bounds on what outputs cost'
    'power:How many random behaviours on a table'\''s budgets fail the axiom'
  )
  [[ $service == rp-wide ]] && commands+=('fit:The indices of goodness of fit of a table, with their evidence' 'checkfit:The checker'\''s verdict on a certificate on goodness of fit of a table' --help --version)
  _describe command commands
}
_rp_panel() {
  _arguments \
    '--id[the column of ids; household by default]:NAME: ' \
    '*--keep[add this column, with the text of the first row of each unit]:NAME: ' \
    '--pump[add the maximum money pump index]' \
    '--power[add how many of DRAWS simulated data sets violate GARP]:DRAWS: :SEED: ' \
    '--intercepts[the prices are exchanged intercepts of two goods: add what share of the offered]' \
    '--demand[write bounds on demand at the prices of the file NEW instead]:NEW:_files' \
    '--welfare[write bounds on the money metric at the prices of NEW instead]:NEW:_files' \
    '--wide[compute results as rp-wide does, which finds more of them]' \
    --help --version '*:long file:_files'
}
_rp() {
  if [[ $service == rp-panel ]]; then
    _rp_panel
    return
  fi
  if (( CURRENT == 2 )); then
    _rp_commands
    return
  fi
  case $words[2] in
    demand) _arguments '--json[a certificate in place of a report]' '*:file:_files' ;;
    welfare) _arguments '--json[a certificate in place of a report]' '*:file:_files' ;;
    random) local -a wide=(); [[ $service == rp-wide ]] && wide=('--steps[so many steps of searches at most]:N: '); _arguments $wide '--per[so many units on each budget or menu]:N: ' '--json[a certificate in place of a report]' '*:file:_files' ;;
    checkrandom) _arguments '--per[so many units on each budget or menu]:N: ' '*:file:_files' ;;
    patches) _arguments '--per[so many units on each budget or menu]:N: ' '*:file:_files' ;;
    menus) _arguments '--per[so many units on each budget or menu]:N: ' '*:file:_files' ;;
    fit) _arguments '--json[a certificate in place of a report]' '*:file:_files' ;;
    *) _files ;;
  esac
}
_rp "$@"
