"""The completions for bash, zsh and fish, from the rows of commands.tsv.

An option's value is one of its words, or a file where it has none. Where no command is named, `show` is meant.
"""

NOTE = "# Written by packaging/make_manual.py. SPDX-License-Identifier: MIT OR Apache-2.0\n"
UNNAMED = "show"

BASH = """_cimaroly() {
    local cur=${COMP_WORDS[COMP_CWORD]} prev=${COMP_WORDS[COMP_CWORD - 1]} command=${COMP_WORDS[1]} words=
    COMPREPLY=()
    # (what is typed as --type=certificate comes as three words)
    if [[ $cur == = ]]; then cur=; elif [[ $prev == = ]]; then prev=${COMP_WORDS[COMP_CWORD - 2]}; fi
    if ((COMP_CWORD == 1)); then command=; fi
    case $command in
@CASES@
    esac
    case $prev in
@VALUES@
    *) if [[ -n $command && $command != help && $cur != -* ]]; then return; fi ;;
    esac
    COMPREPLY=($(compgen -W "$words" -- "$cur"))
}
complete -o bashdefault -o default -F _cimaroly cimaroly
"""

ZSH = """_cimaroly() {
    local command=@UNNAMED@ ret=1
    local -a commands=(
@COMMANDS@
    )
    if ((CURRENT == 2)); then
        _describe command commands && ret=0
        _arguments @FIRST@ && ret=0
        return ret
    fi
    if [[ -n ${(M)commands:#$words[2]:*} ]]; then
        command=$words[2]
        shift words
        ((CURRENT -= 1))
    fi
    case $command in
@CASES@
    esac
}

_cimaroly "$@"
"""


def named(rows):
    return [it for it in rows if it["command"] and not it["long"]]


def options_of(rows, command):
    return [it for it in rows if it["command"] == command and it["long"]]


def first_options(rows):
    """The options that may stand where a command may: those of the program, and those of the command that is meant then."""
    own = options_of(rows, "")
    return own + [it for it in options_of(rows, UNNAMED) if it["long"] not in {row["long"] for row in own}]


def words_of(options):
    return [word for it in options for word in (it["short"], it["long"]) if word]


def values_of(row):
    return row["values"].replace(",", " ")


def types(rows):
    """The words of TYPE, which each option or argument with that value has."""
    (values,) = {values_of(it) for it in rows if it["value"] == "TYPE"}
    return values


def bash_values(rows):
    """What stands behind an option with a value, once for each."""
    cases = {}
    for it in rows:
        if it["long"] and it["value"]:
            what = f"words='{values_of(it)}'" if it["values"] else "return"
            cases[" | ".join(words_of([it]))] = what
    return [f"    {option}) {what} ;;" for option, what in cases.items()]


def bash(rows):
    names = [it["command"] for it in named(rows)]
    cases = [("''", [*words_of(first_options(rows)), *names]), ("help", names)]
    # (the last takes what is no command as well)
    others = [it for it in names if it not in ("help", UNNAMED)]
    cases += [(it, words_of(options_of(rows, it))) for it in others] + [("*", words_of(options_of(rows, UNNAMED)))]
    lines = [f"    {command}) words='{' '.join(words)}' ;;" for command, words in cases]
    text = BASH.replace("@CASES@", "\n".join(lines)).replace("@VALUES@", "\n".join(bash_values(rows)))
    return NOTE + text


def zsh_text(row):
    """What zsh shows of an option or a command, as it stands between single quotes."""
    return row["text"].replace("'", r"'\''")


def zsh_option(row):
    text = zsh_text(row).replace("[", r"\[").replace("]", r"\]").replace(":", r"\:")
    values = f"({values_of(row)})" if row["values"] else "_files"
    value = f":{row['value'].lower()}:{values}" if row["value"] else ""
    if row["short"]:
        return f"'({row['short']} {row['long']})'{{{row['short']},{row['long']}}}'[{text}]{value}'"
    return f"'{row['long']}[{text}]{value}'"


def zsh(rows):
    names = " ".join(it["command"] for it in named(rows))
    cases = []
    for it in named(rows):
        further = f"'*:command:({names})'" if it["command"] == "help" else "'*:file:_files'"
        words = [*map(zsh_option, options_of(rows, it["command"])), further]
        cases.append(f"    {it['command']}) _arguments {' '.join(words)} ;;")
    described = [f"        '{it['command']}:{zsh_text(it)}'" for it in named(rows)]
    first = " ".join([*map(zsh_option, first_options(rows)), "'*:file:_files'"])
    text = ZSH.replace("@COMMANDS@", "\n".join(described)).replace("@CASES@", "\n".join(cases))
    return "#compdef cimaroly\n" + NOTE + text.replace("@FIRST@", first).replace("@UNNAMED@", UNNAMED)


def fish_text(row):
    """What fish shows of an option or a command, as it stands between single quotes."""
    return row["text"].replace("'", r"\'")


def fish_option(row, when):
    short = f" -s {row['short'][1:]}" if row["short"] else ""
    value = ""
    if row["value"]:
        value = f" -x -a '{values_of(row)}'" if row["values"] else " -r -F"
    return f"complete -c cimaroly -n '{when}'{short} -l {row['long'][2:]}{value} -d '{fish_text(row)}'"


def fish(rows):
    names = [it["command"] for it in named(rows)]
    first = "test (count (commandline -opc)) -eq 1"
    lines = [f"complete -c cimaroly -n '{first}' -a {it['command']} -d '{fish_text(it)}'" for it in named(rows)]
    lines += [fish_option(it, first) for it in options_of(rows, "")]
    for name in names:
        when = f"__fish_seen_subcommand_from {name}"
        if name == UNNAMED:
            when = f"not __fish_seen_subcommand_from {' '.join(it for it in names if it != name)}"
        lines += [fish_option(row, when) for row in options_of(rows, name)]
    lines.append(f"complete -c cimaroly -n '__fish_seen_subcommand_from help' -f -a '{' '.join(names)}'")
    return NOTE + "\n".join(lines) + "\n"


def files(programs):
    """The files of completions, by their paths in packaging/share/."""
    cimaroly, tool = programs["cimaroly"], types(programs["x509_tool"])
    return {
        "bash-completion/completions/cimaroly": bash(cimaroly),
        "bash-completion/completions/x509_tool": f"{NOTE}complete -W '{tool}' x509_tool\n",
        "zsh/site-functions/_cimaroly": zsh(cimaroly),
        "zsh/site-functions/_x509_tool": f"#compdef x509_tool\n{NOTE}_arguments '1:type:({tool})'\n",
        "fish/vendor_completions.d/cimaroly.fish": fish(cimaroly),
        "fish/vendor_completions.d/x509_tool.fish": f"{NOTE}complete -c x509_tool -f -a '{tool}'\n",
    }
