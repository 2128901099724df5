"""Parts of files that are made of the catalogue: each is between two lines, of which the first names it with "made by tools/make/catalogue",
and the second is its end. Completions for zsh and fish are made whole.

Synopses, options and exit codes of the manual pages; the words of the completion for bash; the tables of sizes in docs/reference/limits.md
and of options and columns in docs/reference/rp-panel.md. What a cell says that no proved source has is in clients/words.json.
"""
import re


class Unread(Exception):
    """A file has not the two lines of a part."""


def in_font(usage, program):
    """Returns a line of a synopsis with its changes of font."""
    name, *rest = re.findall(r"\[[^]]*\]|\S+", usage)
    plain = [it for it in rest if not it.startswith("[")]
    at = next((at for at, it in enumerate(plain) if it.startswith("--")), len(plain))
    line = rf"\fB{program} {name}\fR" + (rf" \fI{' '.join(plain[:at])}\fR" if at else "")
    for option, value in zip(plain[at::2], plain[at + 1 :: 2]):
        line += rf" \fB{option.replace('-', chr(92) + '-')}\fR \fI{value}\fR"
    for it in rest:
        if it.startswith("["):
            option, *value = it[1:-1].replace("-", r"\-").split()
            line += rf" [\fB{option}\fR" + (rf" \fI{value[0]}\fR" if value else "") + "]"
    return line


def synopsis(own, program):
    return ".nf\n" + "".join(f"{in_font(it['usage'], program)}\n" for it in own) + ".fi\n"


def exit_codes(found):
    """Returns the exit codes of the programs for a manual page, with what is wrong and what to do."""
    told = {it["code"]: f"{it['wrong']}\n{it['do']}" for it in found["hints"] if it["of"] == "status"}
    own = [it for it in found["statuses"] if it["of"] == "program"]
    return "".join(f".TP\n.B {it['number']}\n{told.get(it['name'], it['says'])}\n" for it in own).replace("--", r"\-\-")


def panel_synopsis(found):
    usages = next(it["usage"] for it in found["programs"] if it["name"] == "rp-panel")
    return "".join(f".B rp-panel\n.I {usage.removeprefix('rp-panel ')}\n" for usage in usages)


def panel_options(found):
    told = [(it["name"].replace("-", r"\-"), " ".join(it["values"]), it["says"]) for it in found["panel_options"]]
    return "".join(f'.TP\n.BI {name} " {values}"\n{says}\n' if values else f".TP\n.B {name}\n{says}\n" for name, values, says in told)


def options_table(found):
    rows = "".join(f"| `{' '.join([it['name'], *it['values']])}` | {it['says']} |\n" for it in found["panel_options"])
    return f"<!-- long cells -->\n\n| Option | Meaning |\n|---|---|\n{rows}"


def columns_table(found, *tables):
    """Returns the table of the columns of these tables of panels, each once."""
    names = dict.fromkeys(name for table in tables for name in found["panel_columns"][table])
    lacking = [it for it in names if it not in found["column_words"]]
    if lacking:
        raise Unread(f"clients/words.json says nothing of the columns {', '.join(lacking)}")
    rows = "".join(f"| `{it}` | {found['column_words'][it]} |\n" for it in names)
    last = "columns of `--keep`, then the three of `--intercepts`" if "verdicts" in tables else "columns of `--keep`"
    return f"| Column | Content |\n|---|---|\n{rows}| any others | {last} |\n"


def sizes_table(found):
    """Returns the table of limits: `{name}` is a limit with its digits in threes, `{name^}` one as a power of two."""
    most = {it["name"]: int(it["most"]) for it in found["limits"]}

    def number(own):
        value = most[own[1]]
        return f"2^{value.bit_length() - 1}" if own[2] else f"{value:,}"

    rows = [f"| {what} | {re.sub(r'[{]([a-z_.]+)(.?)[}]', number, limit)} |\n" for what, limit in found["limit_rows"].items()]
    return "| What | Limit |\n|---|---|\n" + "".join(rows)


# ---- completions


def by_options(own):
    """Returns these commands by their options, in order; those without files and options have none."""
    told = {}
    for it in own:
        options = " ".join(one["name"] for one in it["options"])
        if options or not it["files"]:
            told.setdefault(options, []).append(it["name"])
    return told


def bash_commands(found):
    names = " ".join(it["name"] for it in found["commands"])
    return f'    mapfile -t COMPREPLY < <(compgen -W "{names}" -- "$word")\n'


def bash_wide(found):
    names = " ".join([*(it["name"] for it in found["wide_commands"]), "--help", "--version"])
    return f'    case ${{COMP_WORDS[0]}} in *rp-wide) mapfile -t -O "${{#COMPREPLY[@]}}" COMPREPLY < <(compgen -W "{names}" -- "$word") ;; esac\n'


def bash_options(found):
    told = by_options([*found["commands"], *(it for it in found["wide_commands"] if it["options"])])
    return "".join(f"    {' | '.join(names)}) " + (f'options="{own}" ;;\n' if own else "return ;;\n") for own, names in told.items())


def bash_beside(found):
    own = "".join(f"*rp-wide,{it['command']}) options=\"$options {it['name']}\" ;; " for it in found["wide_options"])
    return f"  case ${{COMP_WORDS[0]}},${{COMP_WORDS[1]}} in {own}esac\n"


def bash_panel(found):
    names = " ".join([*(it["name"] for it in found["panel_options"]), "--help", "--version"])
    return f'    mapfile -t COMPREPLY < <(compgen -W "{names}" -- "$word")\n'


def quoted(own, quote):
    """Returns a text as it stands in single quotes of a shell, where this stands for a single quote."""
    return own.rstrip(".").replace("'", quote)


IN_ZSH, IN_FISH = "'\\''", "\\'"


def zsh_option(name, says, values, repeats=False):
    """Returns an option as `_arguments` takes it: what it does, and what follows it."""
    more = "".join(f":{value}:{'_files' if value == 'NEW' else ' '}" for value in values)
    return f"'{'*' if repeats else ''}{name}[{quoted(says, IN_ZSH)}]{more}'"


SAYS = {"--json": "a certificate in place of a report", "--per": "so many units on each budget or menu", "--steps": "so many steps of searches at most"}


def for_zsh(found):
    commands = "".join(f"    '{it['name']}:{quoted(it['says'], IN_ZSH)}'\n" for it in found["commands"])
    wide = "".join(f"'{it['name']}:{quoted(it['says'], IN_ZSH)}' " for it in found["wide_commands"])
    cases = ""
    for it in [*found["commands"], *found["wide_commands"]]:
        own = [zsh_option(one["name"], SAYS[one["name"]], ["N"] if "least" in one else []) for one in it["options"]]
        more = [zsh_option(one["name"], SAYS[one["name"]], [one["value"]]) for one in found["wide_options"] if one["command"] == it["name"]]
        if more:
            cases += f"    {it['name']}) local -a wide=(); [[ $service == rp-wide ]] && wide=({' '.join(more)}); _arguments $wide {' '.join(own)} '*:file:_files' ;;\n"
        else:
            cases += f"    {it['name']}) _arguments {' '.join(own)} '*:file:_files' ;;\n" if own else ""
    own = [zsh_option(it["name"], it["says"], it["values"], it["name"] == "--keep") for it in found["panel_options"]]
    panel = "".join(f" \\\n    {it}" for it in own)
    return f"""#compdef rp rp-wide rp-panel
# Completion of rp, rp-wide and rp-panel in zsh. Made by tools/make/catalogue.
_rp_commands() {{
  local -a commands=(
{commands}  )
  [[ $service == rp-wide ]] && commands+=({wide}--help --version)
  _describe command commands
}}
_rp_panel() {{
  _arguments{panel} \\
    --help --version '*:long file:_files'
}}
_rp() {{
  if [[ $service == rp-panel ]]; then
    _rp_panel
    return
  fi
  if (( CURRENT == 2 )); then
    _rp_commands
    return
  fi
  case $words[2] in
{cases}    *) _files ;;
  esac
}}
_rp "$@"
"""


def for_fish(found):
    lines = ["# Completion of rp, rp-wide and rp-panel in fish. Made by tools/make/catalogue."]
    for program, told in (("rp", found["commands"]), ("rp-wide", [*found["commands"], *found["wide_commands"]])):
        lines += [f"complete -c {program} -n __fish_use_subcommand -f -a {it['name']} -d '{quoted(it['says'], IN_FISH)}'" for it in told]
        for own, names in by_options(told).items():
            for option in own.split():
                value = " -x" if option == "--per" else ""
                lines.append(f"complete -c {program} -n '__fish_seen_subcommand_from {' '.join(names)}' -l {option[2:]}{value}")
    lines += [f"complete -c rp-wide -n '__fish_seen_subcommand_from {it['command']}' -l {it['name'][2:]} -x" for it in found["wide_options"]]
    lines += [f"complete -c rp-wide -l {it}" for it in ("help", "version")]
    for it in found["panel_options"]:
        value = " -r" if it["values"] == ["NEW"] else " -x" if it["values"] else ""
        lines.append(f"complete -c rp-panel -l {it['name'][2:]}{value} -d '{quoted(it['says'], IN_FISH)}'")
    lines += [f"complete -c rp-panel -l {it}" for it in ("help", "version")]
    return "\n".join(lines) + "\n"


# ---- the parts


PARTS = (
    ("release/rp.1", "synopsis", lambda found: synopsis(found["commands"], "rp")),
    ("release/rp-wide.1", "synopsis", lambda found: synopsis([*found["wide_commands"], *found["wide_options"]], "rp-wide")),
    ("release/rp.1", "exit codes", exit_codes),
    ("release/rp-panel.1", "synopsis", panel_synopsis),
    ("release/rp-panel.1", "options", panel_options),
    ("release/rp.bash", "commands", bash_commands),
    ("release/rp.bash", "words of rp-wide", bash_wide),
    ("release/rp.bash", "options", bash_options),
    ("release/rp.bash", "options of rp-wide", bash_beside),
    ("release/rp.bash", "options of panels", bash_panel),
    ("docs/reference/limits.md", "sizes", sizes_table),
    ("docs/reference/rp-panel.md", "options", options_table),
    ("docs/reference/rp-panel.md", "columns of verdicts", lambda found: columns_table(found, "verdicts")),
    ("docs/reference/rp-panel.md", "columns of bounds", lambda found: columns_table(found, "demand", "welfare")),
)
WHOLE = (("release/rp.zsh", for_zsh), ("release/rp.fish", for_fish))


def with_part(file, own, name, body):
    """Returns a file's text with what is between the two lines of a part replaced."""
    part = re.compile(rf"(?ms)^([^\n]*\b{name}: made by tools/make/catalogue[^\n]*\n).*?^([^\n]*\bend of {name}\b[^\n]*)$")
    if len(part.findall(own)) != 1:
        raise Unread(f"{file} has no part {name!r} between two lines")
    blank = "\n" if file.endswith(".md") else ""
    return part.sub(lambda it: f"{it[1]}{blank}{body}{blank}{it[2]}", own)


def drawn(text, found):
    """Returns the files with their parts, by their names."""
    told = {file: make(found) for file, make in WHOLE}
    for file, name, make in PARTS:
        told[file] = with_part(file, told.get(file) or text(file), name, make(found))
    return told
