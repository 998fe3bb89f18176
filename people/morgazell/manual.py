"""The manual pages of section 1, from the same words as --help: python3 -m morgazell.manual VERSION FOLDER, where the folder has
the page of the command itself with a place for its words."""
import argparse
import os
import sys

from .cli import parser
from .files import write


def roff(text):
    """Words as they stand, whatever they begin with."""
    text = text.replace("\\", "\\e").replace("-", "\\-")
    return "\\&" + text if text[:1] in (".", "'") else text


def words_of(top):
    """(name, what it does in a line, its parser) of each word."""
    listed = next(action for action in top._actions if isinstance(action, argparse._SubParsersAction))
    helps = {choice.dest: choice.help for choice in listed._choices_actions}
    return [(name, helps[name], one) for name, one in listed.choices.items()]


def page(name, what, one, version):
    lines = [f'.TH MORGAZELL\\-{roff(name.upper())} 1 "" "Morgazell {version}" "Morgazell"', ".SH NAME",
             f"morgazell\\-{roff(name)} \\- {roff(what)}", ".SH SYNOPSIS", roff(synopsis(one)), ".SH DESCRIPTION",
             roff(one.description)]
    for title, kind in (("FILES", False), ("OPTIONS", True)):
        entries = [action for action in one._actions if bool(action.option_strings) == kind]
        lines += [f".SH {title}"] * bool(entries)
        for action in entries:
            lines += [".TP", f"\\fB{roff(named(action))}\\fR", roff(action.help)]
    example = one.epilog.removeprefix("Example: ")
    lines += [".SH EXIT STATUS", "As of", ".BR morgazell (1).", ".SH EXAMPLE", ".nf", roff(example), ".fi", ".SH SEE ALSO",
              ".BR morgazell (1)"]
    return "\n".join(lines) + "\n"


def synopsis(one):
    return " ".join(one.format_usage().removeprefix("usage: ").split())


def named(action):
    signs = ", ".join(action.option_strings)
    wants = action.metavar or ("" if action.nargs == 0 else "|".join(action.choices or []))
    return " ".join(part for part in (signs, wants) if part)


def whole(template, words, version):
    """The command's own page, with a line for each word."""
    lines = []
    for name, what, _ in words:
        lines += [".TP", f".BR morgazell\\-{roff(name)} (1)", roff(what[0].upper() + what[1:] + ".")]
    return template.replace("@VERSION@", version).replace("@WORDS@\n", "\n".join(lines) + "\n")


def main(version, folder):
    words = words_of(parser())
    own = os.path.join(folder, "morgazell.1")
    with open(own, encoding="utf-8") as file:
        template = file.read()
    write(own, whole(template, words, version).encode())
    for name, what, one in words:
        write(os.path.join(folder, f"morgazell-{name}.1"), page(name, what, one, version).encode())


if __name__ == "__main__":
    main(*sys.argv[1:])
