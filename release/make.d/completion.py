"""Bash completion of a program, from its help."""

# How the names of values begin that are files.
FILES = ("FILE", "OUT", "LIST")
HEAD = """# Bash completion of {name}, made from its help by release/make.
_{name}() {{
    local word=${{COMP_WORDS[COMP_CWORD]}} before=${{COMP_WORDS[COMP_CWORD-1]}} task=${{COMP_WORDS[1]}}
    COMPREPLY=()
    if ((COMP_CWORD == 1)); then
        COMPREPLY=($(compgen -W "{words}" -- "$word"))
        return
    fi
    case $task in
"""
TAIL = """    esac
    compopt -o filenames 2> /dev/null
    COMPREPLY=($(compgen -f -- "$word"))
}}
complete -F _{name} {name}
"""


def case(word, help_text):
    """The part for one word: values that are possible after an option, a number or other text, the options, else files."""
    flags = [flag for it in help_text.items("Options") for flag in it.flags()]
    lines = []
    for it in help_text.items("Options"):
        if it.value() and it.values():
            lines.append(f"""        {"|".join(it.flags())})\n            COMPREPLY=($(compgen -W "{' '.join(it.values())}" -- "$word"))\n            return\n            ;;\n""")
        elif it.value() and not it.value().startswith(FILES):
            lines.append(f"        {'|'.join(it.flags())})\n            return\n            ;;\n")
    if lines:
        lines = ["        case $before in\n", *lines, "        esac\n"]
    lines.insert(0, f"    {word})\n")
    lines.append(f"""        if [[ $word == -* ]]; then\n            COMPREPLY=($(compgen -W "{' '.join(flags)}" -- "$word"))\n            return\n        fi\n""")
    if not any(it.name.startswith(("<FILE", "[FILE")) for it in help_text.items("Arguments")):
        outs = [flag for it in help_text.items("Options") if it.value().startswith(FILES) for flag in it.flags()]
        lines.append(f"        [[ {' || '.join(f'$before == {it}' for it in outs)} ]] || return\n" if outs else "        return\n")
    return "".join(lines) + "        ;;\n"


def completion(name, whole, words):
    """The completion of a program, given its help and that of its words."""
    first = [*words, *(flag for it in whole.items("Options") for flag in it.flags())]
    return HEAD.format(name=name, words=" ".join(first)) + "".join(case(*it) for it in words.items()) + TAIL.format(name=name)
