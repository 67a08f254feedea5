"""Completions of `stnu` and of `planner` for bash, zsh and fish, made of their words."""

from docs.words import planner, stnu

BASH = """# Completion of {tool}.
_{tool}() {{
    local cur=${{COMP_WORDS[COMP_CWORD]}} words files=()
    COMPREPLY=()
    if [ "$COMP_CWORD" -eq 1 ]; then
        words='{first}'
    else
        # (a value that may be anything)
        case ${{COMP_WORDS[COMP_CWORD-1]}} in {values}) return ;; esac
        case ${{COMP_WORDS[1]}} in
{commands}
        esac
    fi
    mapfile -t COMPREPLY < <(compgen -W "$words" -- "$cur")
    COMPREPLY+=("${{files[@]}}")
}}
complete -o bashdefault -o default -F _{tool} {tool}
"""
# In place of a word options are offered once a hyphen stands there.
BASH_COMMAND = """        {name})
            words='{words}'{files}
            case $cur in -*) words='{options}' ;; esac
            ;;"""
# Where a file may stand in place of a word.
BASH_FILES = """
            mapfile -t files < <(compgen -f -- "$cur")
            compopt -o filenames"""

ZSH = """#compdef {tool}
# Completion of {tool}.
_{tool}() {{
    local -a commands
    commands=(
{first}
    )
    if (( CURRENT == 2 )); then
        _describe command commands
        return
    fi
    local command=$words[2]
    shift words
    (( CURRENT -= 1 ))
    case $command in
{commands}
    esac
}}
_{tool} "$@"
"""


def bash(tool):
    """The completion for bash."""
    first = " ".join([it.name for it in tool.commands] + [name for option in tool.options for name in option.names])
    values = sorted({name for it in tool.commands for option in it.options if has_own_value(option) for name in option.names})
    commands = [
        BASH_COMMAND.format(
            name=it.name,
            words=" ".join(it.words),
            options=" ".join(name for option in it.options for name in option.names),
            files=BASH_FILES if it.words and it.takes_files else "",
        )
        for it in tool.commands
    ]
    return BASH.format(tool=tool.name, first=first, values=" | ".join(values), commands="\n".join(commands))


def has_own_value(option):
    return option.value is not None and not option.takes_file


def zsh(tool):
    """The completion for zsh, with what each command and option is for."""
    first = [f"        {quoted(f'{it.name}:{it.about}')}" for it in tool.commands]
    commands = []
    for it in tool.commands:
        words = [quoted(spec) for option in it.options for spec in specs(option)]
        words.append(quoted(f"*:word:{rest_of(it)}"))
        commands.append(f"    {it.name}) _arguments {' '.join(words)} ;;")
    return ZSH.format(tool=tool.name, first="\n".join(first), commands="\n".join(commands))


def rest_of(command):
    """What zsh offers for words that are no options."""
    words = f"({' '.join(command.words)})"
    if command.words and command.takes_files:
        return f"{{_alternative 'words:word:{words}' 'files:file:_files'}}"
    return words if command.words else "_files" if command.takes_files else " "


def specs(option):
    """An option as zsh wants it: each of its names with what it is for, and with what its value
    is."""
    about = option.about.replace("[", "(").replace("]", ")").replace(":", "\\:")
    value = "" if option.value is None else f":{option.value}:{'_files' if option.takes_file else ' '}"
    return [f"{name}[{about}]{value}" for name in option.names]


def quoted(text):
    return "'" + text.replace("'", "'\\''") + "'"


def fish(tool):
    """The completion for fish, with what each command and option is for."""
    lines = [f"# Completion of {tool.name}."]
    for it in tool.commands:
        lines.append(f"complete -c {tool.name} -n __fish_use_subcommand -f -a {it.name} -d {fish_quoted(it.about)}")
        within = f"complete -c {tool.name} -n '__fish_seen_subcommand_from {it.name}'"
        lines += [f"{within} {fish_option(option)}" for option in it.options]
        lines += [f"{within} -a '{' '.join(it.words)}'"] if it.words else []
    lines += [f"complete -c {tool.name} -n __fish_use_subcommand {fish_option(option)}" for option in tool.options]
    return "\n".join(lines) + "\n"


def fish_option(option):
    names = " ".join(f"-s {name[1:]}" if len(name) == 2 else f"-l {name[2:]}" for name in option.names)
    value = "" if option.value is None else " -r -F" if option.takes_file else " -x"
    return f"{names}{value} -d {fish_quoted(option.about)}"


def fish_quoted(text):
    return "'" + text.replace("\\", "\\\\").replace("'", "\\'") + "'"


def files():
    """The text of each completion, by its file below `share`."""
    for tool in (stnu(), planner()):
        yield f"bash-completion/completions/{tool.name}", bash(tool)
        yield f"zsh/site-functions/_{tool.name}", zsh(tool)
        yield f"fish/vendor_completions.d/{tool.name}.fish", fish(tool)
