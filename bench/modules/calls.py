"""The functions of a file of Rattle, and how many fallible calls each has in a row."""
import re

TOKEN = re.compile(
    r"""(?P<blank>\s+|//[^\n]*|/\*.*?\*/)
      | b?r(?P<raw>\#*)".*?"(?P=raw) | b?"(?:\\.|[^"\\])*" | b?'(?:\\.[^']*|[^'\\])'
      | '?\w+ | => | .""",
    re.DOTALL | re.VERBOSE,
)
OPENS = {"{": "}", "(": ")", "[": "]"}
CLAUSES = {"requires", "ensures"}


class Function:
    """A function: its name, the number of its line, and the most fallible calls that stand on one path through its body."""

    def __init__(self, name, line, calls):
        self.name, self.line, self.calls = name, line, calls


class Code:
    """The tokens of a file. Comments are none, and a text is one."""

    def __init__(self, text):
        found = [it for it in TOKEN.finditer(text) if it["blank"] is None]
        self.tokens = [it[0] for it in found]
        self.places = [it.start() for it in found]
        self.text, self.ends, opened = text, {}, []
        for at, token in enumerate(self.tokens):
            if token in OPENS:
                opened.append(at)
            elif opened and token == OPENS[self.tokens[opened[-1]]]:
                self.ends[opened.pop()] = at

    def functions(self):
        """Those with a body, as they stand in the file."""
        for at, token in enumerate(self.tokens[:-1]):
            if token == "fn" and self.tokens[at + 1].isidentifier():
                body = self.body(at)
                if body:
                    line = self.text.count("\n", 0, self.places[at]) + 1
                    yield Function(self.tokens[at + 1], line, self.calls(body + 1, self.ends[body]))

    def body(self, at):
        """Where the body of the function at `at` begins, behind its clauses; none where it has no body."""
        while True:
            at = self.next(at + 1, len(self.tokens), ("{", ";"))
            if at is None or self.tokens[at] == ";":
                return None
            if not CLAUSES & {*self.tokens[at - 2 : at]}:
                return at
            at = self.ends[at]

    def next(self, at, end, wanted):
        """The first of these tokens that stands in no bracket, none where there is none."""
        while at < end:
            if self.tokens[at] in wanted:
                return at
            at = self.ends.get(at, at) + 1
        return None

    def calls(self, at, end):
        """The most fallible calls on one path from `at` to `end`: of the arms of a choice, those of the largest."""
        number = 0
        while at < end:
            token = self.tokens[at]
            if token == "match":
                found, at = self.calls_of_match(at, end)
            elif token == "if":
                found, at = self.calls_of_if(at, end)
            elif token == "fn" and self.tokens[at + 1].isidentifier() and self.body(at):
                found, at = 0, self.ends[self.body(at)] + 1
            elif at in self.ends:
                found, at = self.calls(at + 1, self.ends[at]), self.ends[at] + 1
            else:
                found, at = token == "?" and self.tokens[at + 1] != "Sized", at + 1
            number += found
        return number

    def calls_of_match(self, at, end):
        """Those of the `match` at `at`, and where it ends."""
        begin = self.next(at, end, "{")
        last = self.ends[begin]
        most, arm = 0, begin + 1
        while arm < last:
            body = self.next(arm, last, ["=>"])
            if body is None:
                break
            stop = self.ends[body + 1] + 1 if self.tokens[body + 1] == "{" else self.next(body, last, ",") or last
            most, arm = max(most, self.tokens[arm:body].count("?") + self.calls(body + 1, stop)), stop
        return self.calls(at + 1, begin) + most, last + 1

    def calls_of_if(self, at, end):
        """Those of the `if` at `at` with its `else`, and where it ends. The guard of a pattern in a macro is an `if` with no block."""
        head = self.next(at, end, "=") if self.tokens[at + 1] == "let" else at
        begin = self.next(head or at, end, "{")
        if begin is None:
            return 0, at + 1
        asked, last = self.calls(at + 1, begin), self.ends[begin]
        most, stop = self.calls(begin + 1, last), last + 1
        if stop < end and self.tokens[stop] == "else":
            if self.tokens[stop + 1] == "if":
                other, stop = self.calls_of_if(stop + 1, end)
            else:
                other, stop = self.calls(stop + 2, self.ends[stop + 1]), self.ends[stop + 1] + 1
            most = max(most, other)
        return asked + most, stop
