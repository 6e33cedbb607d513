"""The files of crates/*/src: their types, their traits, and the clauses of their calls, and what these name."""
import re

from specs import KIT, Definition, File, Scope, is_code
from terms import Walk, tokens_of

USE = re.compile(r"^ *(?:pub(?:\([\w ]+\))? )?use ([^;]+);", re.MULTILINE)
ITEM = re.compile(r"(?:pub(?:\([\w ]+\))? )?(enum|struct|trait|type) (\w+)")
VIEW = re.compile(r"impl(?:<.*>)? Model for (\w+)")
VALUE = "    ghost Value = {"
OWNER = re.compile(r"(?:impl(?:<.*>)? (?:.* for )?|pub trait )(\w+)")
CALL = re.compile(r"\s*(?:pub(?:\([\w ]+\))? )?fn (\w+)")
CLAUSE = re.compile(r"\s*(requires|ensures)(?: (\w+))? \{")
GHOST = re.compile(r"\s*ghost (\w+)(?::| =) \{")
ARGUMENT = re.compile(r"(\w+): ((?:[^,()<>]|<[^()]*>|\([^()]*\))+)")
GENERICS = re.compile(r"(?:\bimpl|\b(?:fn|struct|enum|trait|type) \w+)<")
TYPE = re.compile(r"\b[A-Z]\w*")
# the types and traits that no file imports
PRELUDE = set("Self HostRuntime Option Result Some None Ok Err Vec String Box Copy Clone Drop Sized Send Sync Fn FnMut FnOnce Iterator"
              " From Into AsRef Default PartialEq Eq PartialOrd Ord".split())


class Clause:
    """A clause of a call or of a trait: its name as CALL.CLAUSE, its lines with their numbers, and the arguments that it may name."""

    def __init__(self, file, kind, name, lines, arguments):
        self.file, self.kind, self.name, self.lines, self.arguments = file, kind, name, lines, arguments

    def names(self):
        """The definitions that it names."""
        found = set()
        tokens = tokens_of(self.lines)
        walk = Walk(Scope(self.file, found, self.arguments), tokens)
        begin = next(at for at, it in enumerate(tokens) if it.text == "{")
        walk.closed(walk.term(begin + 1, set()))
        return found


class Source(File):
    """A file of src/. Of a type with a view the view's type stands for its fields, since callers see no other."""

    def __init__(self, tree, path):
        super().__init__(tree, path)
        self.uses = dict(it for found in USE.finditer("\n".join(self.lines)) for it in paths_in(" ".join(found[1].split())))
        for at, line in enumerate(self.lines):
            item = ITEM.match(line)
            if item:
                self.add_item(at, *item.groups())

    def add_views(self):
        """Adds the views of the file's types, once all files are read: a view may speak of a trait that stands in another file."""
        for at, line in enumerate(self.lines):
            view = VIEW.match(line)
            if view and view[1] in self.owners:
                self.add_view(at, self.owners[view[1]])

    def numbered(self, first, last):
        return [(at + 1, self.lines[at]) for at in range(first, last + 1)]

    def add_item(self, first, kind, name):
        last = first
        if not self.lines[first].endswith((";", "}")):
            last = next(at for at in range(first + 1, len(self.lines)) if self.lines[at].startswith(("}", ")")))
        above = first
        while self.lines[above - 1].startswith(("///", "#[")):
            above -= 1
        comment = [it for it in self.numbered(above, first - 1) if it[1].startswith("///")]
        item = self.owners[name] = Definition(self, kind, name, comment)
        item.groups.append(self.numbered(first, last))
        item.view = item.types = None
        if kind == "trait":
            self.tree.fields.update(self.members(item))
        else:
            self.add_parts(item)

    def add_parts(self, item):
        """The fields of a type, their types and, as its constructors, its variants."""
        types, depth, before = set(), 0, ""
        deep = 2 if item.kind == "enum" else 1
        for token in tokens_of([it for it in item.groups[0] if is_code(it[1])]):
            depth += (token.kind == "open") - (token.kind == "close")
            if token.text.endswith(":"):
                self.tree.fields.add(token.text[:-1])
            elif token.kind == "word" and depth >= deep:
                types.update(TYPE.findall(token.text))
            elif token.kind == "word" and depth == 1 and before in ("{", ","):
                item.constructors.add(token.text)
            before = token.text
        item.types = types - type_arguments(item.lines()[0])

    def add_view(self, first, item):
        value = next(at for at in range(first, len(self.lines)) if self.lines[at].startswith(VALUE))
        item.view = Clause(self, "view", item.name, self.braced(value), self.arguments(first))
        number, head = item.groups[0][0]
        item.groups = [[(number, head.rstrip("{(; ") + " { .. }")], [*self.numbered(first, first), *item.view.lines, (number, "}")]]

    def braced(self, at):
        """The lines from a line on, up to the end of the braces that it opens."""
        lines, depth = [], 0
        while not lines or depth > 0:
            lines.append((at + 1, self.lines[at]))
            depth += sum((it.text == "{") - (it.text == "}") for it in tokens_of(lines[-1:]))
            at += 1
        return lines

    @staticmethod
    def members(trait):
        return [it[1] for it in map(GHOST.match, trait.lines()) if it]

    def look_up(self, name):
        return super().look_up(name) or self.type_named(name)

    def type_named(self, name):
        """A type by its name here: a definition, `KIT`, or none."""
        if name in self.owners:
            return self.owners[name]
        if name in self.uses:
            return self.tree.item(self, self.uses[name])
        return KIT if name in PRELUDE else None

    def types_in(self, text, number, own=()):
        """The types of the repository that a text of Rust names. Constants, and type arguments of its own, are passed over."""
        found = {name: self.type_named(name) for name in TYPE.findall(text) if name not in own and not name.isupper()}
        for name in found:
            if found[name] is None:
                self.fault(number, "no type has the name %s" % name)
        return {it for it in found.values() if it not in (KIT, None)}

    def name_all(self, item):
        if item.kind == "trait":
            members = dict.fromkeys(self.members(item), frozenset())
            for clause in self.clauses(item.first() - 1, item.groups[0][-1][0], members):
                item.known |= clause.names()
        elif item.view:
            item.known |= item.view.names()
        else:
            item.known |= self.types_in(" ".join(item.types), item.first())

    def clauses(self, first=0, last=None, members=()):
        """The clauses of the calls in these lines, and what a trait says of its members."""
        at, call, owners, own, found = first, "", {}, {}, []
        while at < (len(self.lines) if last is None else last):
            owner, begun = OWNER.match(self.lines[at]), CALL.match(self.lines[at])
            clause = self.clause(at, call, {**dict(members), **owners, **own})
            if owner:
                owners = {**self.arguments(at), "Self": set(), "self": self.types_in(owner[1], at + 1)}
            elif begun:
                call, own = begun[1], self.arguments(at)
            elif clause:
                found.append(clause)
                at += len(clause.lines) - 1
            at += 1
        return found

    def clause(self, at, call, arguments):
        clause, ghost = CLAUSE.match(self.lines[at]), GHOST.match(self.lines[at])
        if not clause and not ghost:
            return None
        kind, name = clause.groups() if clause else ("ghost", ghost[1])
        return Clause(self, kind, "%s.%s" % (call, name or kind), self.braced(at), arguments)

    def arguments(self, at):
        """The arguments of a head, its result and its type arguments, each with what its type or its bounds name."""
        head = self.head(at)
        own = type_arguments(head)
        arguments = {name: self.types_in(types, at + 1, own) for name, types in ARGUMENT.findall(head)}
        _, has_result, result = head.rpartition(" -> ")
        return {**dict.fromkeys(own, set()), "result": self.types_in(result, at + 1, own) if has_result else set(), **arguments}

    def head(self, at):
        """The head of a call or of what has calls, up to its clauses or its body."""
        text = []
        while not CLAUSE.match(self.lines[at]):
            line = self.lines[at].strip()
            # the first clauses may have a comment of their own
            text.append("" if line.startswith("//") else line)
            if text[-1].endswith(("{", "}", ";")):
                break
            at += 1
        return " ".join(text)


def parted(text, brackets):
    """The parts of a text between the commas that stand in no bracket, up to one that closes and isn't opened."""
    opening, closing = brackets
    depth, parts = 0, [""]
    for sign in text:
        depth += (sign in opening) - (sign in closing)
        if depth < 0:
            break
        if sign == "," and depth == 0:
            parts.append("")
        else:
            parts[-1] += sign
    return [it.strip() for it in parts if it.strip()]


def type_arguments(head):
    """The names of the type arguments of a head."""
    begin = GENERICS.search(head)
    return {it.split(":")[0].strip() for it in parted(head[begin.end():].replace("->", ""), ("<(", ">)"))} if begin else set()


def paths_in(text, above=()):
    """The names that a `use` brings in, each with its path."""
    front, is_group, names = text.partition("{")
    path = (*above, *(it for it in front.split("::") if it))
    if is_group:
        for part in parted(names, ("{", "}")):
            yield from paths_in(part, path)
    else:
        theirs, _, ours = path[-1].partition(" as ")
        yield ours or theirs, (*path[:-1], theirs)
