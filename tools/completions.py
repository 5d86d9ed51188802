"""The completions of the command `elasticlunr` for bash, zsh and fish, made from its help.

A word that begins with a hyphen becomes an option of its sub-command, and a value one of those that its option takes. Other
words are files, which the shell completes.
"""
MADE = "# Made from the help of elasticlunr by tools/completions.py."
FOLDERS, LANGUAGES = "DIR", "LANGUAGE"  # values that are folders, and those of `elasticlunr languages`
FILES = {"FILE": "_files", "INDEX": "_files", FOLDERS: "_files -/"}  # values that are files, and what completes them in zsh

BASH = """{made}
_elasticlunr() {{
    local word=${{COMP_WORDS[COMP_CWORD]}} before=${{COMP_WORDS[COMP_CWORD - 1]}} words=
    case "${{COMP_WORDS[1]}} $before" in
{values}    *)
        case "$COMP_CWORD ${{COMP_WORDS[1]}}" in
        "1 "*) words="{first}" ;;
{options}        esac
        [[ $COMP_CWORD == 1 || $word == -* ]] || words=
        ;;
    esac
    mapfile -t COMPREPLY < <(compgen -W "$words" -- "$word")
}}
complete -o bashdefault -o default -F _elasticlunr elasticlunr
"""
ZSH = """#compdef elasticlunr
{made}
_elasticlunr() {{
    local context state state_descr line
    typeset -A opt_args
    _arguments -C {first} '1:command:(({commands}))' '*::word:->words'
    [[ $state == words ]] || return
    case $line[1] in
{options}    esac
}}
_elasticlunr "$@"
"""


def choices_of(word, languages):
    return list(word.choices) or (languages if word.value == LANGUAGES else [])


def names_of(word):
    return [it for it in (word.short, word.long) if it]


def bash(usages, languages):
    whole, *commands = usages
    values, options = "", ""
    for usage in commands:
        for word in usage.options:
            choices = " ".join(choices_of(word, languages))
            if word.value:
                names = " | ".join(f'"{usage.name} {it}"' for it in names_of(word))
                values += f'    {names}) words="{choices}" ;;\n'
        listed = " ".join(word.long for word in usage.options)
        options += f'        *" {usage.name}") words="{listed}" ;;\n'
    first = " ".join([*whole.commands, *(word.long for word in whole.options)])
    return BASH.format(made=MADE, values=values, first=first, options=options)


def quoted(text):
    """A text between the single quotes of a shell."""
    return "'" + text.replace("'", "'\\''") + "'"


def zsh_text(text):
    """A description in a specification of zsh's `_arguments`, where brackets and colons have a meaning."""
    return "".join("\\" + it if it in "\\[]:" else it for it in text)


def zsh_value(word, languages):
    """The part of a specification that says what the value of an option is."""
    choices = choices_of(word, languages)
    if not word.value:
        return ""
    if choices:
        return f":{word.value}:({' '.join(choices)})"
    return f":{word.value}:{FILES.get(word.value, '')}"


def zsh_options(usage, languages):
    for word in usage.options:
        names = names_of(word)
        apart = f"({' '.join(names)})" if len(names) > 1 else ""
        for name in names:
            yield quoted(f"{apart}{name}[{zsh_text(word.meaning)}]{zsh_value(word, languages)}")


def zsh(usages, languages):
    whole, *commands = usages
    options = ""
    for usage in commands:
        words = [*zsh_options(usage, languages), *(quoted(f"{at}{zsh_value(it, ())}") for at, it in enumerate(usage.arguments, 1))]
        options += f"    {usage.name}) _arguments {' '.join(words)} ;;\n"
    about = " ".join(f'{it.name}\\:"{zsh_text(it.about)}"' for it in commands)
    return ZSH.format(made=MADE, first=" ".join(zsh_options(whole, languages)), commands=about, options=options)


def fish_option(condition, word, languages):
    names = f"-l {word.long[2:]}" + (f" -s {word.short[1:]}" if word.short else "")
    choices = " ".join(choices_of(word, languages))
    value = ""
    if choices:
        value = f" -x -a {quoted(choices)}"
    elif word.value:
        value = " -x -a '(__fish_complete_directories)'" if word.value == FOLDERS else " -r" + ("" if word.value in FILES else " -f")
    return f"complete -c elasticlunr -n {quoted(condition)} {names}{value} -d {quoted(word.meaning)}\n"


def fish(usages, languages):
    whole, *commands = usages
    lines = [MADE + "\n", "complete -c elasticlunr -n __fish_use_subcommand -f\n"]
    lines += [fish_option("__fish_use_subcommand", word, languages) for word in whole.options]
    for usage in commands:
        lines.append(f"complete -c elasticlunr -n __fish_use_subcommand -f -a {usage.name} -d {quoted(usage.about)}\n")
        lines += [fish_option(f"__fish_seen_subcommand_from {usage.name}", word, languages) for word in usage.options]
    return "".join(lines)
