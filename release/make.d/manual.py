"""The man pages of both programs: what their help says, and what docs/SCRIPTS.md and docs/WORKBENCH.md say beside it."""
import re

from help import forms_of, words_of
from roff import cells, escaped, inline, page, sections


class Missing(Exception):
    """Something that the programs know and the page does not say."""


def head(name, version, about, date):
    title = f'.TH {name.upper()} 1 "{date}" "xv6vm {version}" "Vigorothuja"'
    return f".\\\" Made by release/man from the help of {name} and the documents.\n{title}\n.SH NAME\n{name} \\- {escaped(about)}\n"


def scripts_page(program, version, date, document):
    """xv6vm(1): the forms of its command line, and docs/SCRIPTS.md."""
    forms, parts = forms_of(program), sections(document)
    told = parts.pop("The program", "")
    for form in forms:
        if f"`{form}`" not in told:
            raise Missing(f"the program's usage has `{form}`, and `The program` of docs/SCRIPTS.md has not")
    out = [head("xv6vm", version, "play scripts against the virtual memory of xv6-riscv", date), ".SH SYNOPSIS"]
    for form in [*forms, "xv6vm --version"]:
        out.append(f".B {escaped(form)}\n.br")
    out += [".SH DESCRIPTION", page(told), ".SH EXAMPLE", page(parts.pop(""))]
    out += [page(f"## {name}\n\n{text}") for name, text in parts.items()]
    out.append(".SH SEE ALSO\n.BR xv6lab (1),\n.I /usr/share/xv6vm/docs\n")
    return "\n".join(out)


def statuses(document):
    """What the table of docs/WORKBENCH.md says of each word's status."""
    found, columns = {}, []
    for line in document.splitlines():
        row = cells(line) if line.startswith("|") else []
        if "Status" in row:
            columns = row
        elif columns and row and not row[0].startswith("-"):
            word = re.match(r"`xv6lab ([\w-]+)", row[0])
            if word:
                found.setdefault(word[1], []).append((row[0], row[columns.index("Status")]))
        elif not row:
            columns = []
    return found


def word_section(word, told, status):
    """The section of a word of xv6lab."""
    out = [f'.SH "{word.upper()}"', f".B {escaped(told.usage)}", ".PP", inline(told.about) + "."]
    for it in told.items("Arguments") + told.items("Options"):
        out.append(f".TP\n.B {escaped(it.name)}\n{inline(it.text)}.")
    for form, text in status:
        out.append(f".PP\n{inline(f'Exit status of {form}: {text}')}.")
    return "\n".join(out)


def workbench_page(program, version, date, document):
    """xv6lab(1): a section for each word of its help, with the statuses of docs/WORKBENCH.md."""
    whole, words = words_of(program)
    told, parts = statuses(document), sections(document)
    out = [head("xv6lab", version, "play, check, trace and draw scripts of xv6vm, answer as a reference MMU", date), ".SH SYNOPSIS"]
    out += [f".B {escaped(it.usage)}\n.br" for it in words.values()]
    out += [".SH DESCRIPTION", page(parts[""].split("\n\n")[0])]
    for word, it in words.items():
        if word not in told:
            raise Missing(f"`{word}` is in the help of xv6lab, and the table of docs/WORKBENCH.md with the column Status has no row for it")
        out.append(word_section(word, it, told[word]))
    out.append('.SH "EXIT STATUS"\n0, if nothing above says otherwise; 1, as the sections say, or if a file cannot be read or written; 2, if the command line is wrong.')
    out.append(".SH SEE ALSO\n.BR xv6vm (1),\n.I /usr/share/xv6vm/docs/WORKBENCH.md\n")
    text = "\n".join(out)
    check_page(text, words)
    return text


def check_page(text, words):
    """Each word of the help has a section, and in it each of its arguments and options."""
    for word, told in words.items():
        section = re.search(rf'^\.SH "{word.upper()}"\n(.*?)(?=^\.SH|\Z)', text, flags=re.MULTILINE | re.DOTALL)
        if section is None:
            raise Missing(f"xv6lab(1) has no section for `{word}`, a word of the help")
        for it in told.items("Arguments") + told.items("Options"):
            if f".B {escaped(it.name)}\n" not in section[1]:
                raise Missing(f"xv6lab(1) does not say `{it.name}` of `{word}`")


def pages(programs, version, date, documents):
    """Both pages, by their names. `documents` returns a document by its path."""
    return {
        "xv6vm.1": scripts_page(programs["xv6vm"], version, date, documents("docs/SCRIPTS.md")),
        "xv6lab.1": workbench_page(programs["xv6lab"], version, date, documents("docs/WORKBENCH.md")),
    }
