"""Documents made wrong on purpose: what was done, what the test has to say of it, the page, and its text."""
import re

# Where no old text is given, what stands between the two groups of the pattern is replaced by the last word.
FAULTS = [
    ("a path that is not there", "there is no tools/judge-all", "README.md", "tools/judge-samples", "tools/judge-all"),
    ("a page that is not there", "there is no page CHANGES.md", "README.md", "CHANGELOG.md", "CHANGES.md"),
    ("a crate that is not there", "nothing has the name turnings", "docs/ARCHITECTURE.md", "| `serving` |", "| `turnings` |"),
    ("a crate left out", "no row has the crate serving", "docs/ARCHITECTURE.md", "| `serving` |", "| `schedule` |"),
    ("a test left out", "it leaves out tests/run lint", "docs/TESTING.md", "`tests/run lint`", "`tests/run format`"),
    ("a function that is not there", "there is no judge::judges", "docs/PROMISES.md", "`judge::judge`", "`judge::judges`"),
    ("a law that is not there", "nothing has the name one_answers", "docs/PROMISES.md", "`one_answer`", "`one_answers`"),
    ("a law in another file", "Refusing has no one_answer", "docs/PROMISES.md", "`one_answer` | Judging", "`one_answer` | Refusing"),
    ("a definition that is not there", "nothing has the name cuts_nothing_at_all", "docs/DECISIONS.md", "`cuts_nothing`", "`cuts_nothing_at_all`"),
    ("a file of laws that is not there", "crate bridge has no proofs/Nexts", "docs/ARCHITECTURE.md", "`bridge/proofs/Next`", "`bridge/proofs/Nexts`"),
    ("an edit that is not there", "there is no edit judge/clean_to_some", "docs/IMPOSTORS.md", "`judge/clean_to_all`", "`judge/clean_to_some`"),
    ("an edit without its row", "no row has the edit words/word_read_from_wrong_byte", "docs/IMPOSTORS.md", "(`word_read_from_wrong_byte`)", "(`a10_is_column_bit`)"),
    ("a test that is not there", "tests/run has no listings", "docs/PROMISES.md", "`tests/run report listing blank openings exports play month`", "`tests/run report listings blank openings exports play month`"),
    ("a decision that is not there", "there is no decision C99999", "docs/STATUS.md", "C19", "C99999"),
    ("a decision that sources name, dropped", "it names C14, which is not there", "docs/DECISIONS.md", "\n**C14. ", "\n**C1414. "),
    ("a decision that stands twice", "two decisions have the number C19", "docs/DECISIONS.md", "\n**C20. ", "\n**C19. "),
    ("a decision without its line in the index", "the index is not that", "docs/DECISIONS.md", "  - C20 ", "  - C21 "),
    ("a section that is not there", "RULES.md has no section 4.7", "docs/PROMISES.md", "sections 4.2 and 6", "sections 4.7 and 6"),
    ("a count of samples", "it says 33, counted are", "README.md", None, r"(of the )\d+( captures)", "33"),
    ("a count of functions", "it says 41, counted are", "docs/PROMISES.md", None, r"(Between the crates )\d+( public)", "41"),
    ("a count of changes", "it says 688, counted are", "docs/TESTING.md", None, r"(one place at a time, )\d+( changes)", "688"),
    ("lines of code", "it says 1, 2, 3, counted are", "docs/STATUS.md", None, r"(definitions, proofs \| )[\d, ]+( \|)", "1, 2, 3"),
    ("the gate's minutes", "it says 26, counted are", "README.md", None, r"(\| )\d+( minutes on two cores)", "26"),
    ("another version", "it says 0.9.9, counted are", "CHANGELOG.md", None, r"(\n## )\d+\.\d+\.\d+(\n)", "0.9.9"),
    ("a package left out", "the install line lacks shellcheck", "README.md", " shellcheck valgrind", " valgrind"),
    ("a long sentence", "a sentence of", "docs/STATUS.md", "One page: ", "One page " + "and another page " * 12),
    ("words of history", "words of history", "docs/STATUS.md", "One page: ", "No longer one page, formerly two: "),
]


def made(pages):
    for name, said, page, old, new, *number in FAULTS:
        text = pages[page]
        changed = text.replace(old, new, 1) if old else re.sub(new, lambda found: found.group(1) + number[0] + found.group(2), text, count=1)
        yield name, said if changed != text else "nothing was changed", page, changed
