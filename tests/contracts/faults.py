"""Laws and sources made wrong on purpose, each with what the test has to say of it."""
import re

LAW = "pub words-word-at-settles : "
GIVEN = "(κs : _) (a : _) (z z' : _) (e e' : _) → words-word-at.Post κs a z e → words-word-at.Post κs a z' e' → "
ALIAS = "use Rattle.words.proofs.%s.Reads as words-word-at\n"
BUFFER = " × (e.1.0.now ≡ e'.1.0.now)"

# Public functions that nothing is proved of, and the alias that their laws would have.
UNPROVED = [
    ("in an impl", "impl Found {\n    pub fn place(self) -> u32 { 0 }\n}\n", "words.proofs.Found.place.Reads as words-Found-place"),
    ("in an impl with a lifetime", "impl<'a> Found<'a> { pub fn place(&self) -> u32 { 0 } }\n", "words.proofs.Found.place.Reads as words-Found-place"),
    ("for C, on one line", '#[unsafe(no_mangle)] pub extern "C" fn word(x: u32) -> u32 { x }\n', "words.proofs.word.Reads as words-word"),
    ("in a nested module", "pub mod a { pub mod b { pub fn word(x: u32) -> u32 { x } } }\n", "words.proofs.a.b.word.Reads as words-a-b-word"),
    ("behind a brace in text", "fn open() -> u8 { b'{' } // {\npub fn word(x: u32) -> u32 { x }\n", "words.proofs.word.Reads as words-word"),
]

# Public functions that lend, and what their laws would say.
LENDING = [
    ("over several lines", "pub fn lend(\n    n: [u32; 4],\n    out: &mut [u32; 4],\n) { }\n", "→ e.1.0.now ≡ e'.1.0.now"),
    ("with a lifetime", "pub fn lend<'a>(n: &'a [u8], out: &'a mut [u8]) { }\n", "→ e.1.0.now ≡ e'.1.0.now"),
    ("twice, and answering", "pub fn lend(a: &mut u32, b: &mut [u8]) -> u8 { 0 }\n",
     "→ (z ≡ z') × ((e.0.now ≡ e'.0.now) × (e.1.0.now ≡ e'.1.0.now))"),
    ("itself", "impl Found { pub fn lend(&mut self, n: u32) { } }\n", "→ e.0.now ≡ e'.0.now"),
    ("inside a struct", "pub fn lend(to: Writer<'_>) -> u8 { 0 }\n", "inside to: Writer<'_>"),
]

# The first has no law, since what is printed is no value; the second wants one.
PRINTED = "pub fn print(out: &mut Out, x: u32) { }\npub fn word(x: u32) -> u32 { x }\n"


def replaced(text, old, new):
    assert text.count(old) == 1, old
    return text.replace(old, new)


def in_laws(laws):
    """(what is wrong, what is to be said of it, laws)"""
    whole = LAW + GIVEN + "z ≡ z'\n"
    yield "a law whose premise is its claim", "missing: " + whole.strip(), replaced(laws, whole, LAW + GIVEN + "z ≡ z' → z ≡ z'\n")
    yield "a law of nothing", "missing: " + whole.strip(), replaced(laws, whole, LAW + "(z z' : _) → z ≡ z' → z ≡ z'\n")
    law = re.search(r"^pub cells-burst-cells-settles : .*\n", laws, re.M).group()
    yield "a law without a buffer", "missing: " + law.strip(), replaced(laws, law, replaced(law, BUFFER, ""))
    other = replaced(laws, ALIAS % "word_at", ALIAS % "put_word")
    yield "an alias of another function", "missing: " + (ALIAS % "word_at").strip(), other
    yield "an alias given twice", "of no public function: " + (ALIAS % "put_word").strip(), laws + ALIAS % "put_word"
    yield "a law missing", "missing: " + whole.strip(), re.sub(r"(pub )?words-word-at-settles .*\n", "", laws)
    yield "a law twice", "of no public function: " + whole.strip(), laws + whole
    yield "a law of no function", "of no public function: pub words-none-settles", laws + whole.replace("word-at", "none")
    yield "a word of the laws redefined", "of no public function: now : ", laws + "now : (A : Type 0) → A → A\n"


def made(texts, laws):
    """(what is wrong, what is to be said of it, sources, laws)"""
    for name, said, changed in in_laws(laws):
        yield name, said, texts, changed
    for name, text, said in UNPROVED + LENDING:
        yield "a public function " + name, said, texts + [("words", [], text)], laws
    yield "one that prints nothing beside those that do", "wording.proofs.word.Reads", texts + [("wording", [], PRINTED)], laws
    yield "one that is lent an output, elsewhere", "words.proofs.print.Reads", texts + [("words", [], PRINTED)], laws
    yield "a module of a folder", "words.proofs.a.b.word.Reads", texts + [("words", ["a", "b"], "pub fn word(x: u32) -> u32 { x }")], laws


# What is wrong with the exports, what is to be said of it, and the text that is replaced by another, once.
EXPORTS = [
    ("an export without a clause", "morgazell_c::morgazell_judge has not the head", "\n    ensures { result ≡ packed (judge_told (judge_answer capture.now)) }", ""),
    ("an export of another clause", "morgazell_c::morgazell_judge has not the head", "judge_told (judge_answer capture.now)", "judge_told (recording_answer capture.now)"),
    ("an export of another argument", "morgazell_c::morgazell_recording has not the head", "morgazell_recording(recording: &[u8])", "morgazell_recording(recording: &[u32])"),
    ("an export that asks for something", "morgazell_c::morgazell_version has not the head", "morgazell_version() -> u32\n", "morgazell_version() -> u32\n    requires { 0 < 1 }\n"),
    ("an export that calls another function", "morgazell_c::morgazell_judge does more", "morgazell::morgazell_judge(capture)", "morgazell::morgazell_recording(capture)"),
    ("an export under another name", "morgazell_c exports no morgazell_judge", "fn morgazell_judge(", "fn morgazell_judged("),
    ("an export that is not exported", "other functions than those", "#[unsafe(no_mangle)]\npub extern \"C\" fn morgazell_judge", "pub extern \"C\" fn morgazell_judge"),
]


def exported(ours, theirs):
    """(what is wrong, what is to be said of it, the library, the exports)"""
    for name, said, old, new in EXPORTS:
        yield name, said, ours, replaced(theirs, old, new)
