#!/bin/sh
# Runs the program rp for rptest.ado on each table of a folder, and gathers what it said.
#
# usage: sh rptest.sh FOLDER
#
# FOLDER has the files
#   rows      a line for each record of each table: the number of its group, a comma, and the record, group after group
#   header    the first line of each table
#   program   one line, the path of the program; where it is empty, the variable RP_EXEC names it, else it is rp on the path
#   asks      a line for each question beside the verdicts: `pump`, `power SEED DRAWS`, and `demand GOODS` or `welfare GOODS`;
#             `fit`, for the indices of goodness of fit by rp-wide, of tables that are no panel;
#             `panel` where the tables are those of the units of a panel, which the program rp-panel answers all together;
#             and `nowide` where what the program withholds is not asked of rp-wide: that of RP_WIDE, else the one beside the program
#   new       new prices, and for demand what is spent, where these are asked
# and gets `results`, of each group its number and fourteen lines: status, garp, afriat, homothetic, quasilinear and attained
# (1, 0 or .), the efficiency index as the nearest double, but below 1 unless it is 1, the money pump ratio and the power as
# doubles; as texts the index and the ratio as fractions, the cycle that violates GARP, what rp-wide gave and rp itself withholds, and a message; then for demand two
# lines for each good, its bounds as doubles near them. For welfare it gets `bounds` too, a line with both for each record.
# For `fit` it gets 13 numbers more, the counts and bounds that `indices` below prints, and the observations that are not kept.
# Where groups have errors and `panel` is asked, it gets `hints`: a number of lines, and of each error how many groups have it, and what to do.
# Of units the fourteen lines are observations, goods, garp, efficiency_floor, attained, homothetic, quasilinear, pump_floor,
# record and column; as texts efficiency, pump, power and fault. What is no table of just these units gives no results.
# A number that is not there is a point. No text of these files, of the variable or of what the program says is read by a shell as more than a text.
here=$PWD
# The sentences of the catalogue, beside this script: lines of a code, a bar, and what is wrong and what to do.
case $0 in /*) hints=${0%/*}/rptest_hints.txt ;; */*) hints=$here/${0%/*}/rptest_hints.txt ;; *) hints=$here/rptest_hints.txt ;; esac
[ -r "$hints" ] || hints=/dev/null
cd -- "$1" || exit 1
room=$PWD
IFS= read -r rp <program || :
[ -n "$rp" ] || rp=${RP_EXEC:-rp}
# shellcheck disable=SC2088
case $rp in
  /*) ;;
  "~/"*) rp=$HOME/${rp#"~/"} ;;
  */*) rp=$here/$rp ;;
esac
export rp
pump="" fit="" power="" new="" goods=0 wide=yes panel=""
while read -r word first second; do
  case $word,$first,$second in
    pump,,) pump=yes ;;
    fit,,) fit=yes ;;
    panel,,) panel=yes ;;
    nowide,,) wide="" asked_wide=no ;;
    power,*[!0-9]*,* | power,*,*[!0-9]* | demand,*[!0-9]*, | welfare,*[!0-9]*,) exit 1 ;;
    power,?*,?*) power="$first $second" ;;
    demand,?*, | welfare,?*,) new=$word goods=$first ;;
    *) exit 1 ;;
  esac
done <asks
# The wider edition: what RP_WIDE names, else what stands beside the program, or beside what that leads to.
if [ -n "$wide" ]; then
  wide=${RP_WIDE:-}
  found=$(command -v -- "$rp" || :)
  for it in "$found" "$(readlink -f -- "$found" 2>/dev/null)"; do
    case $wide,$it in ,*/*) [ ! -x "${it%/*}/rp-wide" ] || wide=${it%/*}/rp-wide ;; esac
    case $wide,$it in ,*/rp/out/*) [ ! -x "${it%/rp/out/*}/rp_wide/out/rp_wide" ] || wide=${it%/rp/out/*}/rp_wide/out/rp_wide ;; esac
  done
  case $wide in "" | /*) ;; */*) wide=$here/$wide ;; esac
  more="rp-wide found no evidence either"
  [ -n "$wide" ] || more="rp-wide may give it, which is not beside rp"
else
  more="rp-wide may give it"
fi
export pump fit power new wide panel
# Units: one long file, whose ids are the numbers of the groups, and one call.
if [ -n "$panel" ]; then
  program=${RP_PANEL:-}
  found=$(command -v -- "$rp" || :)
  for it in "$found" "$(readlink -f -- "$found" 2>/dev/null)"; do
    case $program,$it in ,*/*) [ ! -x "${it%/*}/rp-panel" ] || program=${it%/*}/rp-panel ;; esac
    case $program,$it in ,*/rp/out/*)
      [ ! -x "${it%/rp/out/*}/rp_panel_program/out/rp_panel_program" ] || program=${it%/rp/out/*}/rp_panel_program/out/rp_panel_program ;;
    esac
  done
  case $program in "") program="rp-panel" ;; /*) ;; */*) program=$here/$program ;; esac
  trap 'cd "$here"; rm -f "$room/long.csv" "$room/verdicts" "$room/told"' EXIT
  { printf 'household,'; cat header rows; } >long.csv
  set -- long.csv
  [ -z "$pump" ] || set -- "$@" --pump
  [ -z "$power" ] || set -- "$@" --power "${power#* }" "${power% *}"
  [ "${asked_wide:-}" = no ] || set -- "$@" --wide
  if ! "$program" "$@" >verdicts 2>told </dev/null; then
    cat told >&2
    exit 1
  fi
fi
mkdir tables || exit 1
trap 'cd "$here"; rm -rf "$room/tables" "$room/long.csv" "$room/verdicts" "$room/told"' EXIT
awk -F, '
  NR == FNR { header = $0; next }
  $1 != group { if (file != "") close(file); group = $1; file = "tables/" group ".csv"; print header > file }
  { print substr($0, length($1) + 2) > file }
' header rows || exit 1
cd tables || exit 1
# Twenty-five tables are one shell's, so that thousands do not wait for as many shells. Their names are numbers.
# shellcheck disable=SC2012,SC2016
ls | sed 's/[.]csv$//' | sort -n | xargs -P "$(nproc 2>/dev/null || echo 2)" -n 25 sh -c '
  # What a program adds to its own line begins with a word of its own.
  first() { grep -v "^note: " "$1" | grep -v "^hint: "; }
  for n do
    [ -n "$panel" ] || {
    "$rp" analyse "$n.csv" >"$n.out" 2>"$n.err" </dev/null
    echo $? >"$n.status"
    if [ -n "$wide" ] && grep -q "^homothetic withheld " "$n.out"; then
      mv "$n.out" "$n.stated"
      "$wide" analyse "$n.csv" >"$n.out" 2>"$n.err" </dev/null
      echo $? >"$n.status"
    fi
    [ -z "$pump" ] || "$rp" pump "$n.csv" >"$n.pump" 2>"$n.why" </dev/null || echo "pump $(first "$n.why")" >>"$n.less"
    if [ -n "$fit" ] && [ -z "$wide" ]; then
      echo "fit rp-wide is not beside rp" >>"$n.less"
    elif [ -n "$fit" ]; then
      "$wide" fit "$n.csv" >"$n.fit" 2>"$n.why" </dev/null || echo "fit $(first "$n.why")" >>"$n.less"
    fi
    # shellcheck disable=SC2086
    [ -z "$power" ] || "$rp" power "$n.csv" $power >"$n.power" 2>"$n.why" </dev/null || echo "power $(first "$n.why")" >>"$n.less"
    }
    [ -z "$new" ] || "$rp" "$new" "$n.csv" ../new >"$n.new" 2>"$n.why" </dev/null || echo "$new $(first "$n.why")" >>"$n.less"
    if [ -n "$new" ] && [ -n "$wide" ] && grep -q " withheld " "$n.new"; then
      mv "$n.new" "$n.held"
      "$wide" "$new" "$n.csv" ../new >"$n.new" 2>"$n.why" </dev/null || echo "$new $(first "$n.why")" >>"$n.less"
    fi
  done' sh 2>/dev/null
# How many times ten the new prices are to be taken to be whole.
places=0
[ -z "$new" ] || places=$(awk -F, -v goods="$goods" 'NR == 2 {
  for (at = 1; at <= goods; at++) { part = $at; if (!sub(/^[^.]*[.]/, "", part)) part = ""; sub(/0+$/, "", part); if (length(part) > most) most = length(part) }
} END { print most + 0 }' ../new)
# shellcheck disable=SC2012
ls | sed -n 's/[.]csv$//p' | sort -n >../groups
if [ -n "$panel" ]; then
  if ! awk -v new="$new" -v goods="$goods" -v places="$places" -v hints="$hints" '
  function near(fraction, over,   part) {
    if (fraction !~ /^-?[0-9]+(\/[0-9]+)?$/) return "."
    split(fraction, part, "/")
    return sprintf("%.17g", part[1] / (part[2] == "" ? 1 : part[2]) / over)
  }
  function ends(line, over,   word, count, at) {
    least = most = "."
    count = split(line, word, " ")
    for (at = 1; at < count; at++) {
      if (word[at] == "lower") least = near(word[at + 1], over)
      if (word[at] == "upper") most = near(word[at + 1], over)
    }
  }
  function given(text) { return text == "" ? "." : text }
  function truth(word) { return word == "holds" || word == "yes" ? 1 : word == "violated" || word == "no" ? 0 : "." }
  # What the program told has to be a row for each group, in their order: its verdicts, or its fault.
  function is_row(   at, share) {
    share = "^[0-9]+(/[0-9]+)?$"
    if ($13 != "") {
      for (at = 2; at <= 12; at++) if ($at != "") return 0
      return $13 ~ /^[A-Z][A-Za-z]*$/ && $14 $15 ~ /^[0-9]*$/
    }
    return $2 ~ /^[0-9]+$/ && $3 ~ /^[0-9]+$/ && $4 ~ /^(holds|violated)$/ && $5 ~ share && $6 ~ /^[0-9]+[.][0-9]+$/ && $7 ~ /^(yes|no)$/ && $8 ~ /^(holds|violated|withheld)$/ && $9 ~ /^(holds|violated)$/
  }
  BEGIN {
    FS = ","
    heads = "household,observations,goods,garp,efficiency,efficiency_floor,attained,homothetic,quasilinear,pump,pump_floor,power,fault,record,column"
    if ((getline < "../verdicts") < 1 || $0 != heads) exit failed = 1
  }
  FILENAME == "../rows" { count_of[$1]++; next }
  {
    group = $0
    if ((getline < "../verdicts") < 1 || NF != 15 || $1 != group || !is_row()) exit failed = 1
    fault = $13; split("", low); split("", high)
    if (fault != "") count_with[fault]++
    print group; print given($2); print given($3); print truth($4); print given($6); print truth($7); print truth($8); print truth($9)
    print given($11); print given($14); print given($15); print $5; print $10; print $12; print fault
    while (fault == "" && new != "" && (getline line < (group ".new")) > 0) {
      split(line, word, " ")
      if (word[1] == "observations") tens = word[7]
      if (new == "demand" && word[1] == "good") { ends(line, 10 ^ tens); low[word[2]] = least; high[word[2]] = most }
      if (new == "welfare" && word[1] == "welfare" && match(line, / observation [0-9]+ /)) {
        split(substr(line, RSTART + 1), word, " ")
        ends(line, 10 ^ (tens + places)); low[word[2]] = least; high[word[2]] = most
      }
    }
    close(group ".new")
    for (good = 1; new == "demand" && good <= goods; good++) { print given(low[good]); print given(high[good]) }
    for (at = 1; new == "welfare" && at <= count_of[group]; at++) print given(low[at]) " " given(high[at]) > "../bounds"
  }
  END {
    if (failed || (getline < "../verdicts") > 0) exit 1
    while ((getline line < hints) > 0) { at = index(line, "|"); sentence[substr(line, 1, at - 1)] = substr(line, at + 1) }
    for (fault in count_with) lines++
    if (lines) print lines > "../hints"
    for (fault in count_with) print count_with[fault] " with the error " fault (fault in sentence ? ": " sentence[fault] : "") > "../hints"
  }
  ' ../rows ../groups >../answers; then
    echo "rptest.sh: $program gave no table of these units" >&2
    rm -f ../answers ../groups ../bounds ../hints
    exit 1
  fi
  rm -f ../groups
  mv ../answers ../results
  exit 0
fi
awk -v pump="$pump" -v fit="$fit" -v power="$power" -v new="$new" -v goods="$goods" -v places="$places" -v more="$more" -v hints="$hints" '
  BEGIN { while ((getline line < hints) > 0) { at = index(line, "|"); sentence[substr(line, 1, at - 1)] = substr(line, at + 1) } }
  function value(word) { return word == "holds" || word == "model" ? 1 : word == "violated" || word == "none" ? 0 : "." }
  # The double nearest to a fraction of whole numbers below 2^53, where `over` is 1, and else one near it; but only 1 reads 1.
  function near(fraction, over,   part, found) {
    if (fraction !~ /^-?[0-9]+(\/[0-9]+)?$/) return "."
    split(fraction, part, "/")
    found = part[1] / (part[2] == "" ? 1 : part[2]) / over
    if (over == 1 && found == 1 && part[2] != "") found = 1 - 2 ^ -53
    return sprintf("%.17g", found)
  }
  function given(bound) { return bound == "" ? "." : bound }
  # Prints the indices of goodness of fit: four counts of pairs, that of observations in one, how many are kept at least and at most, the
  # bounds of levels, of squares and of steps; and then the observations that are not kept. What is not there is a point.
  function indices(   line, word, count, at, it, kept, dropped, lines) {
    split("", it); split("", kept)
    while (status == "0" && (getline line < (group ".fit")) > 0) {
      count = split(line, word, " ")
      lines++
      if (word[1] == "violations") for (at = 1; at <= 4; at++) it[at] = word[2 * at + 1]
      if (word[1] == "violating") it[5] = word[3]
      if (word[1] == "kept") { it[6] = word[2]; it[7] = word[3] == "to" ? word[4] : word[2] }
      if (lines > 1 && word[1] == "observations") for (at = 2; at <= count; at++) kept[word[at]] = 1
      if (word[1] == "levels") { it[word[2] == "mean" ? 8 : 10] = near(word[3], 1); it[word[2] == "mean" ? 9 : 11] = near(word[5], 1) }
      if (word[1] == "steps") { it[12] = near(word[2], 1); it[13] = near(word[4], 1) }
    }
    close(group ".fit")
    for (at = 1; at <= 13; at++) print it[at] ~ /^[0-9.e-]+$/ ? it[at] : "."
    for (at = 1; lines && at <= count_of[group]; at++) if (!(at in kept)) dropped = dropped (dropped == "" ? "" : " ") at
    print dropped
  }
  # How many withheld values the lines of a file have.
  function held(file,   line, found) {
    while ((getline line < file) > 0) found += gsub(/ withheld /, " withheld ", line)
    close(file)
    return found + 0
  }
  # Puts the numbers behind the words lower and upper of a line, over the power of ten of their unit, into least and most.
  function ends(line, over,   word, count, at) {
    least = most = "."
    count = split(line, word, " ")
    for (at = 1; at < count; at++) {
      if (word[at] == "lower") least = near(word[at + 1], over)
      if (word[at] == "upper") most = near(word[at + 1], over)
    }
  }
  # How many records each group has.
  FILENAME == "../rows" { split($0, cell, ","); count_of[cell[1]]++; next }
  {
    group = $0; status = "."; message = ""; last = ""; efficiency = ""; cycle = ""; wide = ""; ccei = "."; ratio = ""; share = "."
    split("", is); is["garp"] = is["afriat"] = is["homothetic"] = is["quasilinear"] = is["attained"] = "."
    if ((getline status < (group ".status")) < 1) status = "."
    close(group ".status")
    while ((getline line < (group ".err")) > 0) if (message == "" && line !~ /^(note|hint): /) message = line
    close(group ".err")
    own = "rp: " group ".csv: "
    if (substr(message, 1, length(own)) == own) {
      message = substr(message, length(own) + 1)
      split(message, word, " ")
      if (word[1] in sentence) message = message ": " sentence[word[1]]
    }
    while (status == "0" && (getline line < (group ".out")) > 0) {
      count = split(line, word, " ")
      if ((word[1] in is) && word[1] != "attained") is[word[1]] = value(word[2])
      if (word[1] == "efficiency" && word[2] ~ /^[0-9]+(\/[0-9]+)?$/) {
        efficiency = word[2]; is["attained"] = word[4] == "yes" ? 1 : 0
        ccei = near(efficiency, 1)
      }
      if (word[1] == "observations") tens = word[7]
      if (last == "garp violated" && word[1] == "cycle") cycle = substr(line, 7)
      if (word[2] == "withheld") message = line (word[1] == "homothetic" ? "; " more : "")
      last = line
    }
    close(group ".out")
    if (status == "0" && (is["garp"] == "." || efficiency == "")) { status = "."; message = "what was called as rp gave no answer of rp" }
    if (status == "0" && is["homothetic"] != "." && held(group ".stated")) wide = "homothetic"
    if (status == "0" && held(group ".held") > held(group ".new")) wide = wide (wide == "" ? "" : " ") new
    while (status == "0" && (getline line < (group ".less")) > 0) {
      at = index(line, own)
      message = message (message == "" ? "" : "; ") (at ? substr(line, 1, at - 1) substr(line, at + length(own)) : line)
    }
    close(group ".less")
    while (status == "0" && pump != "" && (getline line < (group ".pump")) > 0) if (split(line, word, " ") == 2 && word[1] == "pump") ratio = word[2]
    close(group ".pump")
    if (ratio !~ /^[0-9]+(\/[0-9]+)?$/) ratio = ""
    while (status == "0" && power != "" && (getline line < (group ".power")) > 0) {
      if (split(line, word, " ") == 6 && word[1] == "power" && word[4] ~ /^[1-9][0-9]*$/ && word[6] ~ /^[0-9]+$/) share = sprintf("%.17g", word[6] / word[4])
    }
    close(group ".power")
    split("", low); split("", high)
    while (status == "0" && new != "" && (getline line < (group ".new")) > 0) {
      split(line, word, " ")
      if (new == "demand" && word[1] == "good") { ends(line, 10 ^ tens); low[word[2]] = least; high[word[2]] = most }
      # "welfare prices LIST observation T lower BOUND upper U at S"
      if (new == "welfare" && word[1] == "welfare" && match(line, / observation [0-9]+ /)) {
        split(substr(line, RSTART + 1), word, " ")
        ends(line, 10 ^ (tens + places)); low[word[2]] = least; high[word[2]] = most
      }
    }
    close(group ".new")
    gsub(/[^A-Za-z0-9 .,:;_\/()+-]/, "?", message)
    gsub(/[^0-9 ]/, "?", cycle)
    print group; print status; print is["garp"]; print is["afriat"]; print is["homothetic"]; print is["quasilinear"]; print is["attained"]
    print ccei; print near(ratio, 1); print share; print efficiency; print ratio; print cycle; print wide; print substr(message, 1, 400)
    for (good = 1; new == "demand" && good <= goods; good++) { print given(low[good]); print given(high[good]) }
    for (at = 1; new == "welfare" && at <= count_of[group]; at++) print given(low[at]) " " given(high[at]) > "../bounds"
    if (fit != "") indices()
  }
' ../rows ../groups >../results
rm -f ../groups
