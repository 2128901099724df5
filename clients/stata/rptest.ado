*! version 0.17.0  rptest: revealed preference tests by the program rp
program define rptest, rclass sortpreserve
    version 13
    syntax [if] [in], Prices(varlist numeric) Quantities(varlist numeric) [BY(varlist) LEVels(varname numeric) OBS(varname) DECimals(numlist integer max=2 >=0 <=6) DIGITS(numlist integer max=2 >=0 <=6) UNITS(string) PUMP FIT POWer(integer 0) SEED(integer 1) NEWprices(numlist >0) MONEY(numlist >0 max=1) EXE(string) NOWIDE GENerate(name) SAVing(string)]
    if "`c(os)'" == "Windows" {
        display as error "rptest starts the program by a script for sh, which Windows has not: run rp.exe by shell, as clients/README.md describes"
        exit 198
    }
    marksample touse, novarlist
    local goods : word count `prices'
    local others : word count `quantities'
    if `goods' != `others' {
        display as error "prices() and quantities() have not the same number of variables"
        exit 198
    }
    * The older name of decimals().
    if "`decimals'" == "" {
        local decimals "`digits'"
    }
    if "`units'" == "" {
        local units = cond("`by'" == "", "tables", "groups")
    }
    local ofprices : word 1 of `decimals'
    local ofquantities : word 2 of `decimals'
    if "`ofquantities'" == "" {
        local ofquantities "`ofprices'"
    }
    local count : word count `newprices'
    if "`newprices'" != "" & `count' != `goods' {
        display as error "newprices() has not one price for each of the `goods' goods"
        exit 198
    }
    if "`money'" != "" & "`newprices'" == "" {
        display as error "money() is spent at newprices(), which is not there"
        exit 198
    }
    if `power' < 0 | `power' > 1000 | `seed' < 0 {
        display as error "power() is a number of draws from 1 to 1000, and seed() 0 or more"
        exit 198
    }

    if "`fit'" != "" & ("`by'" != "" | "`nowide'" != "") {
        display as error "fit is for one table, by rp-wide: leave by() and nowide out, and use if for one unit"
        exit 198
    }

    * What is told of each group: numbers, texts, and, at new prices, the bounds of each good or of each observation.
    local numbers "status garp afriat homothetic quasilinear attained ccei pump power"
    local texts "efficiency pump_ratio cycle wide message"
    local results "status garp afriat homothetic quasilinear attained ccei"
    local told "efficiency cycle wide message"
    if "`pump'" != "" {
        local results "`results' pump"
        local told "efficiency pump_ratio cycle wide message"
    }
    if `power' > 0 {
        local results "`results' power"
    }
    * With by() they are the columns that a panel has everywhere.
    if "`by'" != "" {
        local numbers "observations goods garp efficiency_floor attained homothetic quasilinear pump_floor record column"
        local texts "efficiency pump power fault"
        local results "observations goods garp efficiency_floor attained homothetic quasilinear record column"
        local told "efficiency fault"
        if "`pump'" != "" {
            local results "`results' pump_floor"
            local told "`told' pump"
        }
        if `power' > 0 {
            local told "`told' power"
        }
    }
    local bounds ""
    if "`money'" != "" {
        forvalues good = 1/`goods' {
            local bounds "`bounds' low`good' high`good'"
        }
        local results "`results' `bounds'"
    }
    * The indices of goodness of fit stand behind the bounds, and behind them the observations that are not kept.
    local lists ""
    if "`fit'" != "" {
        local indices "garp_pairs wgarp_pairs warp_pairs sarp_pairs violating kept kept_most levels_low levels_high squares_low squares_high steps_low steps_high"
        local bounds "`bounds' `indices'"
        local results "`results' `indices'"
        local lists "dropped"
        local told "`told' dropped"
    }
    local welfare = "`newprices'" != "" & "`money'" == ""
    if `welfare' & "`generate'" == "" {
        display as error "at newprices() without money() each observation has bounds of its own: say generate()"
        exit 198
    }
    if "`generate'" != "" {
        foreach name in `results' `told' {
            confirm new variable `generate'_`name'
        }
        if `welfare' {
            confirm new variable `generate'_lower
            confirm new variable `generate'_upper
        }
    }
    quietly findfile rptest.sh
    local script `"`r(fn)'"'

    * Groups in the order of their values, and within each the order of the data. The command leaves the data's order.
    * Blanks round an id are cut, and an observation without one is in no table.
    tempvar group order named
    quietly generate long `order' = _n
    quietly generate byte `named' = `touse'
    local unnamed = 0
    if "`by'" == "" {
        local panel : char _dta[_TSpanel]
        if "`panel'" != "" {
            quietly summarize `panel' if `touse'
            if r(min) < r(max) {
                display as error "the data are a panel of `panel'. Use by(`panel'), which tests each unit of the panel"
                exit 459
            }
        }
        quietly generate long `group' = 1 if `touse'
    }
    else {
        local keys ""
        foreach variable of varlist `by' {
            capture confirm string variable `variable'
            if _rc == 0 {
                tempvar key
                quietly generate `key' = regexr(regexr(`variable', "^[ 	]+", ""), "[ 	]+$", "")
                quietly replace `named' = 0 if `key' == ""
                local keys "`keys' `key'"
            }
            else {
                quietly replace `named' = 0 if missing(`variable')
                local keys "`keys' `variable'"
            }
        }
        quietly summarize `order' if `touse' & !`named'
        local unnamed = r(N)
        local nameless = r(min)
        quietly egen long `group' = group(`keys') if `named'
    }
    quietly summarize `group'
    if r(N) == 0 {
        error 2000
    }
    local groups = r(max)
    if "`obs'" != "" {
        sort `group' `obs'
        quietly count if `named' & `group' == `group'[_n-1] & `obs' == `obs'[_n-1]
        if r(N) > 0 {
            display as error "two observations of one table have the same `obs'. Use by() with the variable that tells the units apart"
            exit 459
        }
    }
    sort `group' `order'

    * A missing value refuses its own group. The other numbers have to be exact: with decimals(), text of so many places;
    * else doubles that end after six binary places.
    tempvar lacks refused
    quietly generate byte `lacks' = 0
    local moved = 0
    foreach kind in prices quantities {
        local most = 0
        foreach variable of varlist ``kind'' {
            quietly replace `lacks' = 1 if missing(`variable') & `touse'
            quietly summarize `variable' if `touse'
            local most = max(`most', r(max))
            quietly count if `touse' & !missing(`variable') & `variable' * 64 != floor(`variable' * 64)
            local moved = `moved' + r(N)
        }
        local whole = cond(`most' >= 1, floor(log10(`most')) + 1, 0)
        local allowed = min(6, 7 - `whole')
        if `allowed' >= 0 {
            local allowed = cond(round(`most' * 10^`allowed') > 9999999, `allowed' - 1, `allowed')
        }
        local fits "`fits' `allowed'"
    }
    if "`levels'" != "" {
        quietly replace `lacks' = 1 if missing(`levels') & `touse'
        quietly count if `touse' & `levels' == 1
        if r(N) > 0 {
            display as text "note: a level of 1 is one thousandth, which excuses nearly everything; 1000 is the whole of what was spent"
        }
    }
    if "`decimals'" == "" & `moved' > 0 {
        local fitprices : word 1 of `fits'
        local fitquantities : word 2 of `fits'
        display as error "`moved' numbers need more than 6 decimal places, as binary fractions. Nothing is rounded without an option."
        display as error "If prices are 1 over an intercept, take the intercept of y as the price of x, and that of x as the price of y."
        display as error "decimals(`fitprices' `fitquantities') rounds prices and quantities to the most decimal places that fit 7 digits."
        display as error "If one of the two is below 0, take a larger unit. Rounded prices can change a verdict."
        exit 459
    }
    local ofprices = cond("`decimals'" == "", "6", "`ofprices'")
    local ofquantities = cond("`decimals'" == "", "6", "`ofquantities'")
    quietly egen byte `refused' = max(`lacks'), by(`group')
    * With by() the program tells it, with its place.
    if "`by'" != "" {
        quietly replace `refused' = 0
    }
    tempvar place
    quietly generate long `place' = sum(`named' & !`refused')

    * The records of all tables, as texts behind the numbers of their groups.
    tempvar line
    quietly generate strL `line' = trim(string(`group', "%12.0f")) if `named'
    foreach kind in prices quantities {
        foreach variable of varlist ``kind'' {
            quietly replace `line' = `line' + "," + trim(string(`variable' + 0, "%32.`of`kind''f")) if `named'
        }
    }
    if "`levels'" != "" {
        quietly replace `line' = `line' + "," + trim(string(`levels' + 0, "%32.6f")) if `named'
    }

    * A folder of files beside a temporary name, and one call of the script there.
    tempfile room
    mkdir `"`macval(room)'_rp"'
    local room `"`macval(room)'_rp"'
    tempname file
    file open `file' using `"`macval(room)'/header"', write text replace
    forvalues good = 1/`goods' {
        file write `file' "p_`good',"
    }
    forvalues good = 1/`goods' {
        local comma = cond(`good' == `goods', "", ",")
        file write `file' "q_`good'`comma'"
    }
    if "`levels'" != "" {
        file write `file' ",e"
    }
    file write `file' _n
    file close `file'
    file open `file' using `"`macval(room)'/asks"', write text replace
    if "`pump'" != "" {
        file write `file' "pump" _n
    }
    if `power' > 0 {
        file write `file' "power `seed' `power'" _n
    }
    if "`fit'" != "" {
        file write `file' "fit" _n
    }
    if "`money'" != "" {
        file write `file' "demand `goods'" _n
    }
    if `welfare' {
        file write `file' "welfare `goods'" _n
    }
    if "`by'" != "" {
        file write `file' "panel" _n
    }
    if "`nowide'" != "" {
        file write `file' "nowide" _n
    }
    file close `file'
    if "`newprices'" != "" {
        file open `file' using `"`macval(room)'/new"', write text replace
        forvalues good = 1/`goods' {
            local comma = cond(`good' == `goods' & `welfare', "", ",")
            file write `file' "p_`good'`comma'"
        }
        if "`money'" != "" {
            file write `file' "m"
        }
        file write `file' _n
        local record ""
        local comma ""
        foreach value in `newprices' `money' {
            local lead = cond(substr("`value'", 1, 1) == ".", "0", "")
            local record "`record'`comma'`lead'`value'"
            local comma ","
        }
        file write `file' "`record'" _n
        file close `file'
    }
    file open `file' using `"`macval(room)'/program"', write text replace
    file write `file' `"`macval(exe)'"' _n
    file close `file'
    file open `file' using `"`macval(room)'/rows"', write text replace
    local row = 1
    while `row' <= _N {
        if `named'[`row'] & !`refused'[`row'] {
            local cells = `line'[`row']
            file write `file' "`cells'" _n
        }
        local row = `row' + 1
    }
    file close `file'
    local quotedscript : subinstr local script "'" "'\''", all
    local quotedroom : subinstr local room "'" "'\''", all
    shell sh '`macval(quotedscript)'' '`macval(quotedroom)''
    capture confirm file `"`macval(room)'/results"'
    local failed = _rc

    * What comes back: in variables, in a dataset, and, where there are not too many groups, in r().
    if "`generate'" != "" {
        foreach name in `results' {
            quietly generate double `generate'_`name' = .
        }
        foreach name in `told' {
            quietly generate strL `generate'_`name' = ""
        }
        if `welfare' {
            quietly generate double `generate'_lower = .
            quietly generate double `generate'_upper = .
        }
    }
    if `"`saving'"' != "" {
        tempname posted
        local of "double group"
        if "`by'" != "" {
            local of ""
            foreach variable of varlist `by' {
                capture confirm string variable `variable'
                local kind = cond(_rc == 0, "str2045", "double")
                local of "`of' `kind' `variable'"
            }
        }
        local kinds "str80 efficiency str80 pump_ratio str2045 cycle str80 wide str400 message"
        if "`by'" != "" {
            local kinds "str80 efficiency str80 pump str80 power str80 fault"
        }
        postfile `posted' `of' double(`results') `kinds' using `saving'
    }
    tempname verdicts
    local small = `groups' <= 800
    if `small' {
        local columns : word count `results'
        matrix `verdicts' = J(`groups', `columns', .)
        matrix colnames `verdicts' = `results'
    }
    tempname rows
    if `failed' == 0 {
        file open `file' using `"`macval(room)'/results"', read text
        if `welfare' {
            file open `rows' using `"`macval(room)'/bounds"', read text
        }
    }
    local rownames ""
    local row = 1
    local number = 1
    local held = 0
    local without = 0
    while `number' <= `groups' {
        local first = `row'
        while `row' <= _N & `group'[`row'] == `number' {
            local row = `row' + 1
        }
        local last = `row' - 1
        foreach name in `numbers' `bounds' {
            local `name' "."
        }
        foreach name in `texts' `lists' {
            local `name' ""
        }
        if `refused'[`first'] {
            local status "416"
            local message "a value is missing"
        }
        else if `failed' == 0 {
            file read `file' answered
            foreach name in `numbers' `texts' `bounds' `lists' {
                file read `file' `name'
            }
            if "`answered'" != "`number'" {
                display as error "the answers of the program are not whole"
                exit 459
            }
        }
        * A fault's record is told by the number of its observation in the data.
        if "`by'" != "" & "`record'" != "." & `failed' == 0 {
            local at = `first'
            while `at' < `last' & `place'[`at'] < `record' {
                local at = `at' + 1
            }
            local record = `order'[`at']
        }
        if `welfare' & `failed' == 0 & !`refused'[`first'] {
            local at = `first'
            while `at' <= `last' {
                file read `rows' pair
                local lower : word 1 of `pair'
                local upper : word 2 of `pair'
                quietly replace `generate'_lower = `lower' in `at'/`at'
                quietly replace `generate'_upper = `upper' in `at'/`at'
                local at = `at' + 1
            }
        }
        local held = `held' + ("`garp'" == "1")
        local without = `without' + ("`garp'" == ".")
        if `small' {
            local slot = 1
            foreach name in `results' {
                matrix `verdicts'[`number', `slot'] = ``name''
                local slot = `slot' + 1
            }
        }
        if "`generate'" != "" {
            foreach name in `results' {
                quietly replace `generate'_`name' = ``name'' in `first'/`last'
            }
            foreach name in `told' {
                quietly replace `generate'_`name' = "``name''" in `first'/`last'
            }
        }
        if `"`saving'"' != "" {
            local key "(`number')"
            if "`by'" != "" {
                local key ""
                foreach variable of varlist `by' {
                    local key "`key' (`variable'[`first'])"
                }
            }
            local values ""
            foreach name in `results' {
                local values "`values' (``name'')"
            }
            if "`by'" != "" {
                post `posted' `key' `values' ("`efficiency'") ("`pump'") ("`power'") ("`fault'")
            }
            else {
                post `posted' `key' `values' ("`efficiency'") ("`pump_ratio'") ("`cycle'") ("`wide'") ("`message'")
            }
        }
        if "`by'" != "" & `small' {
            * A group is called by its values, one behind the other; the row of the matrix by what of them a name can have.
            local called ""
            foreach variable of varlist `by' {
                local value = `variable'[`first']
                local blank = cond(`"`macval(called)'"' == "", "", " ")
                local called `"`macval(called)'`blank'`macval(value)'"'
            }
            local rowname = substr(strtoname(`"`macval(called)'"'), 1, 32)
            local rownames "`rownames' `rowname'"
            return local group`number' `"`macval(called)'"'
            foreach name in `texts' {
                return local `name'`number' "``name''"
            }
        }
        local number = `number' + 1
    }
    if `failed' == 0 {
        file close `file'
        if `welfare' {
            file close `rows'
        }
    }
    if `small' & "`by'" != "" {
        matrix rownames `verdicts' = `rownames'
    }
    if `"`saving'"' != "" {
        postclose `posted'
    }
    * What is wrong with groups, and what to do: a number of lines, and the lines.
    capture confirm file `"`macval(room)'/hints"'
    if _rc == 0 {
        file open `file' using `"`macval(room)'/hints"', read text
        file read `file' lines
        local line = 1
        while `line' <= `lines' {
            file read `file' said
            display as text "`said'"
            local line = `line' + 1
        }
        file close `file'
    }
    foreach name in header program rows results asks new bounds hints {
        capture erase `"`macval(room)'/`name'"'
    }
    capture rmdir `"`macval(room)'"'
    display as text "`groups' `units': GARP holds in `held', and `without' are without a verdict"
    if `unnamed' > 0 {
        display as text "`unnamed' observations have no id (`by'), the first of them observation `nameless': they are in no table"
    }
    if `small' {
        matrix list `verdicts', noheader
    }
    if `failed' {
        display as error "the script rptest.sh gave no results"
        exit 601
    }
    if "`by'" == "" {
        return local efficiency "`efficiency'"
        return local pump_ratio "`pump_ratio'"
        return local cycle "`cycle'"
        return local wide "`wide'"
        return local message "`message'"
        if "`fit'" != "" {
            return local dropped "`dropped'"
        }
        foreach name in `results' {
            return scalar `name' = ``name''
        }
        if "`status'" != "0" {
            display as error "rp ended with status `status': `message'"
        }
    }
    return scalar groups = `groups'
    return scalar held = `held'
    return scalar without = `without'
    return scalar unnamed = `unnamed'
    if `small' {
        return matrix verdicts = `verdicts'
    }
end
