"""Sentences that can be read: none of more than thirty words, and no words of history, in the documents that say what is so."""
import re

MOST = 30

# Pages whose sentences are counted: all that a reader reads from the top.
READ = {"README.md", "CONTRIBUTING.md", "CHANGELOG.md", "samples/README.md", "tests/README.md", "docs/PROMISES.md", "docs/DECISIONS.md",
        "docs/ARCHITECTURE.md", "docs/LISTING.md", "docs/TESTING.md", "docs/PERFORMANCE.md", "docs/STATUS.md", "docs/IMPOSTORS.md",
        "docs/requests/README.md"}

# Pages that may speak of what was.
HISTORY = {"CHANGELOG.md"}
WAS = re.compile(r"\b(formerly|no longer(?! than)|any more|used to be|as it stood|until now|before there (?:was|were)|in the old way)\b")


def sentences(text):
    """The sentences of paragraphs and points, and the pieces of cells of tables; code counts as a word, what stands in brackets
    is left out, and so is a cell that has names in code and nothing else, since a list is no sentence."""
    text = re.sub(r"^    .*$", "", text, flags=re.M)
    text = re.sub(r"`[^`\n]*`", "code", text)
    text = re.sub(r"\([^()]*\)|[*#]", "", text)
    for line in text.splitlines():
        if line.startswith("|"):
            yield from (piece for piece in re.split(r"(?<=[.?!;:])\s+| \| ", line.strip("| ")) if not re.fullmatch("code(, code)*", piece))
        else:
            yield from re.split(r"(?<=[.?!])\s+", line)


def wrong(page, text):
    if page in READ:
        for sentence in sentences(text):
            if len(sentence.split()) > MOST:
                yield "a sentence of %d words: %s" % (len(sentence.split()), sentence.strip()[:90])
    if page not in HISTORY:
        yield from ("words of history: " + word for word in WAS.findall(text))
