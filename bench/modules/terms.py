"""The terms of specs/ and of clauses: their tokens, and the names in them that are no variables of their own."""
import re

# a name goes on to a blank or a bracket, with the fields that follow it; what follows a bracket is a field of its own
TOKEN = re.compile(
    r'(?P<comment>--(?=[\s-]|$).*|//.*)|(?P<word>"(?:\\.|[^"\\])*"|\[\]|[^\s(){}\[\];,".]+(?:\.[^\s(){}\[\];,".]+)*)'
    r'|(?P<open>[(\[{])|(?P<close>[)\]}])|(?P<field>\.[^\s(){}\[\];,".]+)|(?P<mark>[;,.])'
)
LITERAL = re.compile(r'[0-9][0-9_]*$|0x[0-9a-f_]+$|"')
# the language's own words, and the tactics of which proof terms in specs/ make use
WORDS = set("→ × ↦ = : λ _ | as do elim in Type Unit tt ⊥ ¬ ∥ ∥₁ IsProp absurd omega unfolding".split())


class Token:
    def __init__(self, kind, text, line, indent):
        self.kind, self.text, self.line, self.indent = kind, text, line, indent


def tokens_of(lines):
    """The tokens of pairs of a line's number and its text, without comments."""
    tokens = []
    for number, text in lines:
        indent = len(text) - len(text.lstrip(" "))
        tokens += [Token(it.lastgroup, it[0].strip("«»"), number, indent) for it in TOKEN.finditer(text) if it.lastgroup != "comment"]
    return tokens


def rows_of(tokens):
    """The tokens in rows: each begins at the margin of the first one, and has what is indented below it."""
    rows = []
    for at, token in enumerate(tokens):
        begins = at == 0 or tokens[at - 1].line != token.line
        if begins and token.indent == tokens[0].indent:
            rows.append([])
        rows[-1].append(token)
    return rows


def place_of(tokens, text):
    """The place of the first token with this text that stands in no bracket, or the number of tokens."""
    depth = 0
    for at, token in enumerate(tokens):
        depth += (token.kind == "open") - (token.kind == "close")
        if depth == 0 and token.text == text:
            return at
    return len(tokens)


class Walk:
    """Goes over the tokens of a term. `scope` says what the names mean that are no variables of the term; it is told each word with the
    fields that follow it. A function of a place gives the place after what it read; `names` are the variables there."""

    def __init__(self, scope, tokens):
        self.scope, self.tokens = scope, tokens

    def text(self, at):
        return self.tokens[at].text if 0 <= at < len(self.tokens) else ""

    def is_end(self, at, ends):
        return at >= len(self.tokens) or self.tokens[at].kind == "close" or self.tokens[at].text in ends

    def term(self, at, names, ends=()):
        """A term, or terms with marks between them, up to a bracket that closes or to a word at which it ends."""
        outer = names
        while not self.is_end(at, ends):
            token = self.tokens[at]
            if token.kind == "mark":
                at, names = at + 1, outer
            elif token.text == "λ":
                at, names = self.variables(at + 1, names)
            elif token.text == "let":
                at, names = self.definition(at + 1, names)
            elif token.text == "record":
                at = self.record(at + 1, names)
            elif token.kind == "open":
                at, names = self.bracket(at, names)
            elif self.text(at + 1) == "←":
                at, names = at + 2, names | {token.text}
            else:
                self.word(token, names)
                at += 1
        return at

    def word(self, token, names):
        first, *fields = token.text.split(".") if token.kind != "field" else ["", *token.text[1:].split(".")]
        if token.kind == "field" or first in names:
            self.scope.take_fields(token, fields)
        elif token.text not in WORDS and not LITERAL.match(token.text):
            self.scope.take(token, first, fields)

    def variables(self, at, names):
        """The variables of a function, up to their dot."""
        while not self.is_end(at, (".",)):
            if self.tokens[at].kind == "open":
                bound = self.bound(at + 1)
                if bound:
                    at, names = self.bracket(at, names)
                else:
                    after, names = self.pattern(at + 1, names)
                    at = self.closed(after)
            else:
                at, names = at + 1, names | {self.tokens[at].text}
        return at + 1, names

    def definition(self, at, names):
        """A name, its type if that is said, and its value, up to `in`."""
        name = self.text(at)
        if self.text(at + 1) == ":":
            at = self.term(at + 2, names, ("=",)) - 1
        at = self.term(at + 2, names, ("in",))
        return at + 1, names | {name}

    def record(self, at, names):
        """The fields of a record, and before them the value of which it is an update."""
        while not self.is_end(at, ()) and self.text(at) != "{":
            if self.tokens[at].kind == "open":
                at, _ = self.bracket(at, names)
            else:
                self.word(self.tokens[at], names)
                at += 1
        at += 1
        while not self.is_end(at, ()):
            self.scope.take_fields(self.tokens[at], [self.text(at)])
            at = self.term(at + 2, names, (";",))
            at += self.text(at) == ";"
        return self.closed(at)

    def bound(self, at):
        """The variables that a bracket binds: words before a colon."""
        names = set()
        while not self.is_end(at, (":",)) and self.tokens[at].kind == "word":
            names.add(self.text(at))
            at += 1
        return names if self.text(at) == ":" else set()

    def bracket(self, at, names):
        """What stands in brackets. Where it binds variables, they are known after it."""
        bound = self.bound(at + 1)
        if self.text(at) == "[":
            return self.closed(self.cases(at + 1, names)), names
        if bound:
            at += 1 + len(bound)
        elif self.text(at) == "{" and self.text(at + 2) == "=":
            at += 2
        return self.closed(self.term(at + 1, names)), names | bound

    def brackets(self, at, names):
        """The arguments of a record, a data type or a section."""
        while self.text(at) in ("(", "{"):
            at, names = self.bracket(at, names)
        return at, names

    def cases(self, at, names):
        while not self.is_end(at, ()):
            at, inner = self.pattern(at + (self.text(at) == "|"), names, ("↦",))
            at = self.term(at + 1, inner, ("|",))
        return at

    def pattern(self, at, names, ends=()):
        """A pattern: its words are constructors, or the variables that it binds."""
        while not self.is_end(at, ends):
            token = self.tokens[at]
            if token.kind == "open":
                after, names = self.pattern(at + 1, names)
                at = self.closed(after) - 1
            elif self.text(at + 1) == "=" and "=" not in ends:
                at += 1
            elif token.kind == "word" and ("." in token.text or self.scope.makes(token.text)):
                self.word(token, set())
            elif token.kind == "word":
                if self.text(at - 1) == "(" and self.is_operand(at + 1):
                    self.scope.fault(token, "no constructor has the name %s" % token.text)
                names = names | {token.text}
            at += 1
        return at, names

    def is_operand(self, at):
        return at < len(self.tokens) and self.tokens[at].kind in ("word", "open") and not self.scope.is_operator(self.text(at))

    def equation(self, names):
        """Patterns and a term, and below it the definitions of its own."""
        where = place_of(self.tokens, "where")
        rows = rows_of(self.tokens[where + 1:])
        own = {row[0].text for row in rows if place_of(row, ":") == 1}
        at, names = self.pattern(0, names | own, ("=",))
        Walk(self.scope, self.tokens[:where]).whole(at + 1, names)
        for row in rows:
            walk = Walk(self.scope, row)
            if place_of(row, ":") == 1:
                walk.whole(2, names)
            else:
                walk.equation(names)

    def whole(self, at, names):
        """A term up to the end."""
        at = self.term(at, names)
        if at < len(self.tokens):
            self.scope.fault(self.tokens[at], "what is this here: %s" % self.text(at))

    def closed(self, at):
        """The place after the bracket that closes here."""
        if at >= len(self.tokens) or self.tokens[at].kind != "close":
            self.scope.fault(self.tokens[min(at, len(self.tokens) - 1)], "a bracket isn't closed")
        return at + 1
