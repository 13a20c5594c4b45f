"""The completions of the program for bash, zsh and fish, made of its help."""
from scripts.help_text import HELP

# What the values of these names are; others are neither files nor folders.
FILES = ("FILE", "CLAIMS", "RULEFILE")
FOLDERS = ("DIR",)

# Options after which the program ends.
ENDS = ("--help", "--version")

BASH = r"""# Completions of cafile for bash: source this file, or put it as ~/.local/share/bash-completion/completions/cafile.

_cafile() {
    local word=${COMP_WORDS[COMP_CWORD]} before=${COMP_WORDS[COMP_CWORD - 1]} words= files=
    COMPREPLY=()
    # an option and its value with = between are three words
    if [[ $word == = ]]; then
        word=
    elif [[ $before == = ]]; then
        before=${COMP_WORDS[COMP_CWORD - 2]}
    fi
    if ((COMP_CWORD == 1)); then
        words="@words@"
    else
        case ${COMP_WORDS[1]} in
@commands@
        esac
    fi
    if [[ $files ]]; then
        compopt -o filenames 2>/dev/null
        mapfile -t COMPREPLY < <(compgen "$files" -- "$word")
    else
        mapfile -t COMPREPLY < <(compgen -W "$words" -- "$word")
    fi
}

complete -F _cafile cafile
"""

BASH_COMMAND = """            @name@)
                case $before in
@values@                    *) if [[ $word == -* ]]; then words="@options@"; else @rest@; fi ;;
                esac
                ;;"""

ZSH = r"""#compdef cafile
# Completions of cafile for zsh: put this file as _cafile into a folder of $fpath.

_cafile() {
    local curcontext=$curcontext state line
    typeset -A opt_args
    local -a commands=(
@names@
    )
    _arguments -C \
@options@
        '1:command:->command' \
        '*::word:->words'
    case $state in
        command) _describe command commands ;;
        words)
            curcontext="${curcontext%:*:*}:cafile-$words[1]:"
            case $words[1] in
@commands@
            esac
            ;;
    esac
}

_cafile "$@"
"""

FISH = r"""# Completions of cafile for fish: put this file into ~/.config/fish/completions.

# Whether the first word is this command, or there is none yet.
function __cafile_has
    set -l words (commandline -opc)
    test "$words[2]" = "$argv[1]"
end

@lines@
"""


# What stands in fish for no command.
NONE = '""'


def filled(template, **parts):
    """A template with its parts in their places."""
    for name, part in parts.items():
        template = template.replace(f"@{name}@", part)
    return template


def bash_value(entry):
    """What bash sets, so that it offers an entry's values."""
    if entry.choices:
        return f'words="{" ".join(entry.choices)}"'
    return "files=-f" if entry.value in FILES else "files=-d" if entry.value in FOLDERS else ":"


def bash_command(help_text):
    """The case of a command in bash."""
    names = {}
    for it in help_text.options:
        names.setdefault(bash_value(it), []).extend(it.names if it.value else ())
    values = "".join(f"                    {' | '.join(options)}) {value} ;;\n" for value, options in names.items() if options)
    options = " ".join(name for it in help_text.options for name in it.names)
    return filled(BASH_COMMAND, name=help_text.name(), values=values, options=options, rest=" ".join(map(bash_value, help_text.arguments[:1])) or ":")


def bash(whole, commands):
    """The completions for bash."""
    names = [name for it in whole.commands for name in it.names]
    cases = [*map(bash_command, commands), f'            {HELP}) words="{" ".join(names)}" ;;']
    words = [*names, *[name for it in whole.options for name in it.names]]
    return filled(BASH, words=" ".join(words), commands="\n".join(cases))


def zsh_text(text):
    """A text within the quotes and brackets of zsh."""
    for it in "\\[]:":
        text = text.replace(it, "\\" + it)
    return text.replace("'", r"'\''")


def zsh_value(entry):
    """What zsh offers as an entry's value."""
    if entry.choices:
        return f"({' '.join(entry.choices)})"
    return "_files" if entry.value in FILES else "_files -/" if entry.value in FOLDERS else " "


def zsh_option(entry):
    """The words of zsh for an option. Nothing stands beside one that ends the run."""
    said = f"[{zsh_text(entry.about)}]" + (f":{entry.value}:{zsh_value(entry)}" if entry.value else "")
    names = [it + ("=" if it.startswith("--") else "+") * bool(entry.value) for it in entry.names]
    if len(names) == 1:
        return f"'{names[0]}{said}'"
    others = "- *" if entry.names[-1] in ENDS else " ".join(entry.names)
    return f"'({others})'{{{','.join(names)}}}'{said}'"


def zsh_argument(entry):
    """The words of zsh for an argument."""
    return f"'{'*' if entry.is_many else '1'}:{entry.value}:{zsh_value(entry)}'"


def zsh_command(help_text):
    """The case of a command in zsh."""
    words = [*map(zsh_option, help_text.options), *map(zsh_argument, help_text.arguments)]
    lines = [f"                {help_text.name()})", "                    _arguments \\", *[f"                        {it} \\" for it in words]]
    return "\n".join(lines).rstrip(" \\") + "\n                    ;;"


def zsh(whole, commands):
    """The completions for zsh."""
    names = "\n".join(f"        '{it.names[0]}:{zsh_text(it.about)}'" for it in whole.commands)
    options = "\n".join(f"        {zsh_option(it)} \\" for it in whole.options)
    cases = [*map(zsh_command, commands), f"                {HELP}) _describe command commands ;;"]
    return filled(ZSH, names=names, options=options, commands="\n".join(cases))


def fish_quoted(text):
    """A word of fish's in quotes."""
    return "'" + text.replace("\\", "\\\\").replace("'", "\\'") + "'"


def fish_value(entry):
    """The words of fish for an entry's value."""
    if entry.choices:
        return f" -x -a {fish_quoted(' '.join(entry.choices))}"
    return " -r -F" if entry.value in FILES else " -x -a '(__fish_complete_directories)'" if entry.value in FOLDERS else " -x" if entry.value else ""


def fish_option(name, entry):
    """The line of fish for an option of a command."""
    words = "".join(f" -l {it[2:]}" if it.startswith("--") else f" -s {it[1:]}" for it in entry.names)
    return f"complete -c cafile -n '__cafile_has {name}'{words}{fish_value(entry)} -d {fish_quoted(entry.about)}"


def fish_command(help_text):
    """The lines of fish for a command."""
    lines = [fish_option(help_text.name(), it) for it in help_text.options]
    return lines + [f"complete -c cafile -n '__cafile_has {help_text.name()}' -f" for it in help_text.arguments if it.value not in FILES]


def fish(whole, commands):
    """The completions for fish."""
    names = [(it.names[0], fish_quoted(it.about)) for it in whole.commands]
    lines = [f"complete -c cafile -n '__cafile_has {NONE}' -f -a {name} -d {about}" for name, about in names]
    lines += [fish_option(NONE, it) for it in whole.options]
    lines += [line for it in commands for line in fish_command(it)]
    lines += [f"complete -c cafile -n '__cafile_has {HELP}' -f -a {fish_quoted(' '.join(name for name, _ in names))}"]
    return filled(FISH, lines="\n".join(lines))
