{smcl}
{title:Title}

{p2colset 5 16 18 2}{p2col:{bf:rptest}}revealed preference tests by the program rp{p_end}

{title:Syntax}

{p 8 16 2}{cmd:rptest} [{it:if}] [{it:in}]{cmd:,} {opt p:rices(varlist)} {opt q:uantities(varlist)}
[{opt by(varlist)} {opt lev:els(varname)} {opt obs(varname)} {opt dec:imals(# [#])} {opt units(name)} {opt pump} {opt fit} {opt pow:er(#)} {opt seed(#)}
{opt new:prices(# # ..)} {opt money(#)} {opt gen:erate(stub)} {opt sav:ing(filename[, replace])} {opt exe(filename)} {opt nowide}]

{title:Description}

{pstd}{cmd:rptest} tests whether prices and chosen quantities satisfy the generalized axiom of revealed preference, GARP (Varian
1982). It computes the critical cost efficiency index, CCEI (Afriat 1973). It also tests whether the utility could be homothetic (Varian
1983) or quasilinear (Brown and Calsamiglia 2007). Each observation of the data is an observation of the test. Prices and
quantities are matched by the order of their variables.

{pstd}The verdicts are those of the program rp, which is proved. This command is not proved, and its authors did not run it in Stata.
It needs Linux.

{title:Options}

{phang}{opt by(varlist)} tests each group alone, by one call of the program rp-panel. The environment variable RP_PANEL names
it; otherwise it is the one beside rp. Blanks around a name are ignored. An observation without a name belongs to no group, and
{cmd:r(unnamed)} counts them. A group with an error has it in its row, with the number of the observation and of the column. Column 1
is the group, and then come prices and quantities in their order. The other groups go on. Data that are {cmd:xtset} as a panel need {opt by()}.

{phang}{opt levels(varname)} has the efficiency level of each observation, in integer thousandths from 1 to 1000: how much of its expenditure
counts (Varian 1990). GARP and Afriat numbers use these levels.

{phang}{opt obs(varname)} has the names of the observations, such as a year or a round. If two observations of one table have the same
name, the command stops with r(459). The data are then a panel, and {opt by()} names its units.

{phang}{opt decimals(# [#])} rounds to this number of decimal places, 0 to 6: one number for prices and quantities, or one for each.
Without it nothing is rounded. A double such as 3.18 is a binary fraction with more than 6 decimal places, and stops the command with
r(459). The message says which {opt decimals()} fit. {opt digits()} is an older name of this option.

{phang}{opt units(name)} is what the groups are called, such as subjects, in what is displayed.

{phang}{opt pump} adds the maximum money pump index of each group (Echenique, Lee and Shum 2011).

{phang}{opt fit} adds indices of goodness of fit of one table, by the program rp-wide. It is not available with {opt by()} or {opt nowide}.
For several units, use {cmd:if}. A table of 50 observations takes less than a second, and one of 512 can take two minutes. Levels are
rejected.

{phang}{opt power(#)} draws 1 to 1000 random behaviours on the budgets of each group, and adds the share that violates GARP
(Bronars 1987). {opt seed(#)} is 1 by default. The draws are those of the program's command power, which are nearer to equal shares than
uniform draws.

{phang}{opt newprices(# # ..)} has one new price for each good. With {opt money(#)}, the new expenditure, the results are bounds on the demand of
each good. Without it, they are bounds on what it costs at the new prices to be as well off as at each observation. This needs
{opt generate()}, which makes the variables {it:stub}{cmd:_lower} and {it:stub}{cmd:_upper}.

{phang}{opt generate(stub)} makes the variables {it:stub}{cmd:_garp} and so on, with the results of the group in each observation.

{phang}{opt saving(filename)} makes a dataset with an observation for each group.

{phang}{opt exe(filename)} is the program. Otherwise the environment variable RP_EXEC names it, or it is rp on the path. The script
rptest.sh beside this command runs it.

{phang}{opt nowide} uses rp alone. Otherwise results that rp leaves undetermined come from rp-wide, if it finds them. The environment
variable RP_WIDE names it, or it is the one beside the program.

{title:Remarks and examples}

{phang2}{cmd:. rptest, prices(p_bread p_wine) quantities(q_bread q_wine) by(subject) decimals(2) units(subjects) generate(v)}{p_end}
{phang2}{cmd:. summarize v_garp v_efficiency_floor}{p_end}
{phang2}{cmd:. count if v_efficiency_floor >= 0.95}{p_end}

{pstd}efficiency_floor is the CCEI, rounded down to six decimal places. It is at least 0.95 exactly if the CCEI is at least 0.95.
A verdict is 1 if it holds, 0 if it is violated, and missing if it is undetermined or the data have an error.

{title:Stored results}

{pstd}Without {opt by()}, {cmd:rptest} stores scalars:

{p2colset 9 28 30 2}{p2col:{cmd:r(status)}}the exit code of rp{p_end}
{p2col:{cmd:r(garp)}}GARP; likewise {cmd:r(afriat)}, {cmd:r(homothetic)}, {cmd:r(quasilinear)}{p_end}
{p2col:{cmd:r(attained)}}whether GARP holds at the CCEI itself{p_end}
{p2col:{cmd:r(ccei)}}the double nearest to the CCEI, below 1 unless it is 1{p_end}
{p2col:{cmd:r(pump)}, {cmd:r(power)}}if requested{p_end}
{p2col:{cmd:r(garp_pairs)}}with {opt fit}, ordered pairs that violate GARP; likewise {cmd:r(wgarp_pairs)}, {cmd:r(warp_pairs)}, {cmd:r(sarp_pairs)}{p_end}
{p2col:{cmd:r(violating)}}observations in a pair that violates GARP{p_end}
{p2col:{cmd:r(kept)}, {cmd:r(kept_most)}}bounds on the largest number of observations that satisfy GARP together (Houtman and Maks 1985){p_end}
{p2col:{cmd:r(levels_low)}, {cmd:r(levels_high)}}bounds on Varian's index, the mean of 1 - e{p_end}
{p2col:{cmd:r(squares_low)}, {cmd:r(squares_high)}}bounds on the mean of (1 - e)^2; no root is taken{p_end}
{p2col:{cmd:r(steps_low)}, {cmd:r(steps_high)}}bounds on the minimum cost index (Dean and Martin 2016){p_end}
{p2col:{cmd:r(low}{it:#}{cmd:)}, {cmd:r(high}{it:#}{cmd:)}}bounds on the demand of each good{p_end}

{pstd}and macros:

{p2col:{cmd:r(efficiency)}}the CCEI as a fraction{p_end}
{p2col:{cmd:r(pump_ratio)}}the money pump index as a fraction{p_end}
{p2col:{cmd:r(cycle)}}the observations of a cycle that violates GARP{p_end}
{p2col:{cmd:r(dropped)}}with {opt fit}, the observations that are not kept{p_end}
{p2col:{cmd:r(wide)}}what rp-wide found and rp leaves undetermined (homothetic, demand, welfare){p_end}
{p2col:{cmd:r(message)}}why a verdict is missing{p_end}

{pstd}With {opt by()}, {cmd:rptest} stores:

{p2col:{cmd:r(groups)}}the number of groups{p_end}
{p2col:{cmd:r(held)}}how many satisfy GARP{p_end}
{p2col:{cmd:r(without)}}how many have no verdict{p_end}
{p2col:{cmd:r(unnamed)}}how many observations belong to no group{p_end}
{p2col:{cmd:r(group}{it:#}{cmd:)}}the name of group {it:#}{p_end}
{p2col:{cmd:r(efficiency}{it:#}{cmd:)}}its CCEI; likewise {cmd:r(pump}{it:#}{cmd:)} and {cmd:r(power}{it:#}{cmd:)}, as fractions{p_end}
{p2col:{cmd:r(fault}{it:#}{cmd:)}}its error{p_end}
{p2col:{cmd:r(verdicts)}}a matrix with a row for each group{p_end}

{pstd}With {opt by()}, the columns of {cmd:r(verdicts)} are {cmd:observations}, {cmd:goods}, {cmd:garp}, {cmd:efficiency_floor}, {cmd:attained}, {cmd:homothetic},
{cmd:quasilinear}, {cmd:record} and {cmd:column}, and {cmd:pump_floor} if requested. Without it they are {cmd:status}, {cmd:garp},
{cmd:afriat}, {cmd:homothetic}, {cmd:quasilinear}, {cmd:attained} and {cmd:ccei}, and what was requested. With more than 800 groups there
is neither a matrix nor a macro of a group: use {opt generate()} or {opt saving()}.

{p2colreset}{...}
{title:Methods and formulas}

{pstd}See docs/reference/rp-analyse.md, rp-pump.md, rp-fit.md, rp-power.md, rp-demand.md and rp-welfare.md of the program.

{title:References}

{phang}Afriat, S. N. 1973. On a system of inequalities in demand analysis: An extension of the classical method. {it:International Economic Review} 14: 460-472.

{phang}Bronars, S. G. 1987. The power of nonparametric tests of preference maximization. {it:Econometrica} 55: 693-698.

{phang}Brown, D. J., and C. Calsamiglia. 2007. The nonparametric approach to applied welfare analysis. {it:Economic Theory} 31: 183-188.

{phang}Dean, M., and D. Martin. 2016. Measuring rationality with the minimum cost of revealed preference violations. {it:Review of Economics and Statistics} 98: 524-534.

{phang}Echenique, F., S. Lee, and M. Shum. 2011. The money pump as a measure of revealed preference violations. {it:Journal of Political Economy} 119: 1201-1223.

{phang}Houtman, M., and J. A. H. Maks. 1985. Determining all maximal data subsets consistent with revealed preference. {it:Kwantitatieve Methoden} 19: 89-104.

{phang}Varian, H. R. 1982. The nonparametric approach to demand analysis. {it:Econometrica} 50: 945-973.

{phang}Varian, H. R. 1983. Non-parametric tests of consumer behaviour. {it:Review of Economic Studies} 50: 99-110.

{phang}Varian, H. R. 1990. Goodness-of-fit in optimizing models. {it:Journal of Econometrics} 46: 125-140.

{title:Also see}

{psee}{cmd:powerps} (Demetry, Hjertstrand and Polisson 2022) draws random behaviour uniformly, and tests it.{p_end}
