# Completion of rp, rp-wide and rp-panel in fish. Made by tools/make/catalogue.
complete -c rp -n __fish_use_subcommand -f -a pairs -d 'The first two observations of a table that contradict each other'
complete -c rp -n __fish_use_subcommand -f -a analyse -d 'The verdicts on a table, with their evidence'
complete -c rp -n __fish_use_subcommand -f -a certify -d 'The verdicts on a table with their evidence, as a certificate'
complete -c rp -n __fish_use_subcommand -f -a check -d 'The checker\'s verdict on a certificate on a table'
complete -c rp -n __fish_use_subcommand -f -a demand -d 'Demand at new prices that a table supports'
complete -c rp -n __fish_use_subcommand -f -a welfare -d 'The bounds on the money metric of a table\'s observations at new prices'
complete -c rp -n __fish_use_subcommand -f -a utility -d 'The utility of bundles under the numbers that a table gives'
complete -c rp -n __fish_use_subcommand -f -a random -d 'Whether rational types make the choices from budgets'
complete -c rp -n __fish_use_subcommand -f -a checkrandom -d 'The checker\'s verdict on a certificate on choices from budgets'
complete -c rp -n __fish_use_subcommand -f -a patches -d 'The patches that choices from budgets fall in'
complete -c rp -n __fish_use_subcommand -f -a trial -d 'The verdicts on the trial table of a seed'
complete -c rp -n __fish_use_subcommand -f -a menus -d 'Whether mixtures of strict orders make the choices from menus'
complete -c rp -n __fish_use_subcommand -f -a pump -d 'The greatest money pump ratio of a table'
complete -c rp -n __fish_use_subcommand -f -a cost -d 'The axioms of production on a technology, and the bounds on what outputs cost'
complete -c rp -n __fish_use_subcommand -f -a power -d 'How many random behaviours on a table\'s budgets fail the axiom'
complete -c rp -n '__fish_seen_subcommand_from demand welfare' -l json
complete -c rp -n '__fish_seen_subcommand_from random' -l per -x
complete -c rp -n '__fish_seen_subcommand_from random' -l json
complete -c rp -n '__fish_seen_subcommand_from checkrandom patches menus' -l per -x
complete -c rp-wide -n __fish_use_subcommand -f -a pairs -d 'The first two observations of a table that contradict each other'
complete -c rp-wide -n __fish_use_subcommand -f -a analyse -d 'The verdicts on a table, with their evidence'
complete -c rp-wide -n __fish_use_subcommand -f -a certify -d 'The verdicts on a table with their evidence, as a certificate'
complete -c rp-wide -n __fish_use_subcommand -f -a check -d 'The checker\'s verdict on a certificate on a table'
complete -c rp-wide -n __fish_use_subcommand -f -a demand -d 'Demand at new prices that a table supports'
complete -c rp-wide -n __fish_use_subcommand -f -a welfare -d 'The bounds on the money metric of a table\'s observations at new prices'
complete -c rp-wide -n __fish_use_subcommand -f -a utility -d 'The utility of bundles under the numbers that a table gives'
complete -c rp-wide -n __fish_use_subcommand -f -a random -d 'Whether rational types make the choices from budgets'
complete -c rp-wide -n __fish_use_subcommand -f -a checkrandom -d 'The checker\'s verdict on a certificate on choices from budgets'
complete -c rp-wide -n __fish_use_subcommand -f -a patches -d 'The patches that choices from budgets fall in'
complete -c rp-wide -n __fish_use_subcommand -f -a trial -d 'The verdicts on the trial table of a seed'
complete -c rp-wide -n __fish_use_subcommand -f -a menus -d 'Whether mixtures of strict orders make the choices from menus'
complete -c rp-wide -n __fish_use_subcommand -f -a pump -d 'The greatest money pump ratio of a table'
complete -c rp-wide -n __fish_use_subcommand -f -a cost -d 'The axioms of production on a technology, and the bounds on what outputs cost'
complete -c rp-wide -n __fish_use_subcommand -f -a power -d 'How many random behaviours on a table\'s budgets fail the axiom'
complete -c rp-wide -n __fish_use_subcommand -f -a fit -d 'The indices of goodness of fit of a table, with their evidence'
complete -c rp-wide -n __fish_use_subcommand -f -a checkfit -d 'The checker\'s verdict on a certificate on goodness of fit of a table'
complete -c rp-wide -n '__fish_seen_subcommand_from demand welfare fit' -l json
complete -c rp-wide -n '__fish_seen_subcommand_from random' -l per -x
complete -c rp-wide -n '__fish_seen_subcommand_from random' -l json
complete -c rp-wide -n '__fish_seen_subcommand_from checkrandom patches menus' -l per -x
complete -c rp-wide -n '__fish_seen_subcommand_from random' -l steps -x
complete -c rp-wide -l help
complete -c rp-wide -l version
complete -c rp-panel -l id -x -d 'the column of ids; household by default'
complete -c rp-panel -l keep -x -d 'add this column, with the text of the first row of each unit'
complete -c rp-panel -l pump -d 'add the maximum money pump index'
complete -c rp-panel -l power -x -d 'add how many of DRAWS simulated data sets violate GARP'
complete -c rp-panel -l intercepts -d 'the prices are exchanged intercepts of two goods: add what share of the offered'
complete -c rp-panel -l demand -r -d 'write bounds on demand at the prices of the file NEW instead'
complete -c rp-panel -l welfare -r -d 'write bounds on the money metric at the prices of NEW instead'
complete -c rp-panel -l wide -d 'compute results as rp-wide does, which finds more of them'
complete -c rp-panel -l help
complete -c rp-panel -l version
