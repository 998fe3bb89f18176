"""The commands that a shell script calls, as far as they stand in its text. It knows the forms that our scripts have: lists,
pipes, cases, functions, texts in quotes with commands in them, and documents up to END."""
import re

KEYWORDS = set("if then else elif fi while do done in { } ! exec xargs command".split())
BUILT_IN = set("[ : case cd echo esac exit export for local printf pwd read return set shift trap true wait".split())
WORD = re.compile(r"""[^\s;|&()<>"'`#][^\s;|&()<>"'`]*""")
REDIRECTED = re.compile(r"[<>]+(?:&\d)?")
DOCUMENT = re.compile(r"<<END\n(?s:.*?)\nEND\n")


class Script:
    def __init__(self, text):
        self.text, self.at = DOCUMENT.sub("\n", text), 0
        self.calls, self.own = [], set()
        self.scan("")

    def scan(self, closing):
        """Goes on to the closing sign. A command is expected behind a keyword and at the start of each part of a list."""
        expected = True
        while self.at < len(self.text):
            sign = self.text[self.at]
            if sign == closing:
                self.at += 1
                return
            if sign in "|&;\n()":
                expected = True
                self.at += 1
                if sign == "(":
                    self.scan(")")
            elif sign == "#":
                self.at = self.behind("\n") - 1
            elif sign in "'\"":
                expected = False
                self.quoted(sign)
            elif sign in "<>":
                expected = False
                self.at = REDIRECTED.match(self.text, self.at).end()
            elif sign.isspace() or sign == "`":
                self.at += 1
            else:
                expected = self.word(expected, closing)

    def behind(self, sign):
        found = self.text.find(sign, self.at)
        return len(self.text) if found < 0 else found + 1

    def quoted(self, sign):
        self.at += 1
        while self.text[self.at] != sign:
            if sign == '"' and self.text.startswith("$(", self.at):
                self.at += 2
                self.scan(")")
            else:
                self.at += 2 if sign == '"' and self.text[self.at] == "\\" else 1
        self.at += 1

    def word(self, expected, closing):
        """Notes a word where a command is expected; whether one is expected behind it."""
        word = WORD.match(self.text, self.at).group()
        self.at += len(word)
        behind = self.text[self.at:self.at + 2]
        if behind == "()":
            self.own.add(word)
            self.at += 2
            return True
        if not expected or behind[:1] == ")" and closing != ")":
            return False
        if word in KEYWORDS or word.startswith("-") or "=" in word:
            return True
        self.calls.append(word)
        return False


def calls(text):
    """Names of programs, without those that the script or the shell has itself, and without paths."""
    script = Script(text)
    return [word for word in script.calls if re.fullmatch(r"[a-z][\w+-]*", word) and word not in BUILT_IN | script.own]
