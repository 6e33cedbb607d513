"""The files of crates/*/specs: what they import and define, and what their definitions name. A name is looked up where it stands: among the
variables there, in its file, and in what the file imports. Of the kit's library a file knows what it imports, and no more. A name that is
found nowhere is a fault of its place, and so is a line that can't be read."""
import os
import re

from terms import WORDS, Walk, place_of, rows_of, tokens_of

IMPORT = re.compile(r"\s*(ghost |pub )?use ([\w.]+?)(?:\.\{(.*)\}|(?: as (\w+))?);?$")
HEAD = re.compile(r"((?:(?:abbrev|unfoldable|pub|record|data) )*)(\S+)(.*)")
OTHER_LINE = re.compile(r"(?:pub )?mod |infix[lr]? ")
PART = re.compile(r"  (?:pub )?(\S+(?: \S+)*?) :")
SECTION = "module _ "
TACTICS = "Prim"
HOLE = "◌"
# what a name of the kit means
KIT = object()


def is_code(line):
    return bool(line.strip()) and not line.lstrip().startswith(("--", "//", "#["))


class Definition:
    """A definition of specs/, or a type or a trait of src/: the comment above it, and its lines in groups, each line with its number."""

    def __init__(self, file, kind, name, comment):
        self.file, self.kind, self.name, self.comment = file, kind, name, comment
        self.groups, self.section, self.constructors, self.known = [], (), set(), None

    def first(self):
        """The number of its first line."""
        return self.groups[0][0][0]

    def lines(self):
        return [line for group in self.groups for _, line in group]

    def count(self):
        """The number of its lines of code."""
        return sum(map(is_code, self.lines()))

    def names(self):
        """The definitions that it names."""
        if self.known is None:
            self.known = set()
            self.file.name_all(self)
        return self.known


class Scope:
    """What the names of a definition or a clause mean that are no variables of its terms. `arguments` has those of a call, each with the
    definitions that its type names. What is named goes to `found`."""

    def __init__(self, file, found, arguments=()):
        self.file, self.found, self.arguments = file, found, dict(arguments)

    def take(self, token, first, fields):
        if first == TACTICS:
            return
        if first in self.arguments:
            self.found |= self.arguments[first]
        else:
            if fields and first in self.file.modules:
                meant = self.file.tree.find(self.file.modules[first], fields.pop(0))
            else:
                meant = self.file.look_up(first)
            self.note(token, meant)
            if fields and meant and meant is not KIT and fields[0] in meant.constructors:
                fields.pop(0)
        self.take_fields(token, fields)

    def note(self, token, meant):
        if meant is None:
            self.fault(token, "nothing has the name %s" % token.text)
        elif meant is not KIT:
            self.found.add(meant)

    def take_fields(self, token, fields):
        for field in fields:
            if field not in self.file.tree.fields and not field.isdigit():
                self.fault(token, "nothing has a field %s" % field)

    def makes(self, name):
        return self.file.makes(name)

    def is_operator(self, name):
        return name in self.file.operators

    def fault(self, token, text):
        self.file.fault(token.line, text)


class File:
    """A file: what it imports, and its definitions by the names of themselves and of their constructors."""

    def __init__(self, tree, path):
        self.tree, self.path = tree, path
        self.imports, self.handed_on, self.modules, self.operators, self.owners = {}, {}, {}, {}, {}
        with open(os.path.join(tree.crates, path)) as file:
            self.lines = file.read().splitlines()
        for number, line in enumerate(self.lines, 1):
            found = IMPORT.match(line)
            if found:
                self.take_import(number, *found.groups())

    def take_import(self, number, kind, module, names, alias):
        if names is None:
            self.modules[alias or module.split(".")[-1]] = module
            return
        for name in names.split(", "):
            theirs, _, ours = name.partition(" as ")
            self.imports[ours or theirs] = module, theirs, number
            self.add_operator(ours or theirs)
            if kind == "pub ":
                self.handed_on[ours or theirs] = module, theirs

    def add_operator(self, name):
        """An operator is known by the words that stand between its operands."""
        if HOLE in name:
            self.operators.update(dict.fromkeys(filter(None, name.split(HOLE)), name))

    def look_up(self, name):
        """What a name means here: a definition, `KIT`, or none."""
        name = self.operators.get(name, name)
        if name in self.owners:
            return self.owners[name]
        return self.tree.find(*self.imports[name][:2]) if name in self.imports else None

    def makes(self, name):
        """Whether a word of a pattern is no variable. The kit's names count as constructors, since nothing hangs on them."""
        name = self.operators.get(name, name)
        if name not in self.owners and name not in self.imports:
            return name in WORDS or name[0].isdigit()
        meant = self.look_up(name)
        theirs = name if name in self.owners else self.imports[name][1]
        return meant is KIT or meant is not None and theirs in meant.constructors

    def read_all(self):
        """Looks up all that the file imports, and all that its definitions name."""
        for module, name, line in self.imports.values():
            if self.tree.find(module, name) is None:
                self.fault(line, "%s has no %s" % (module, name))
        for definition in set(self.owners.values()):
            definition.names()

    def fault(self, line, text):
        self.tree.faults.add("crates/%s:%d: %s" % (self.path, line, text))


class Specs(File):
    """A file of specs/. A definition has a head, with the parts of a record or a data type below it, or a type and equations. All of them
    begin at the margin, or at that of a section whose arguments they share."""

    def __init__(self, tree, path):
        super().__init__(tree, path)
        comment, current = [], None
        for line, text, section in self.in_sections():
            if text.startswith("--"):
                comment.append(line)
            elif text.startswith((" ", "}", "]", ")")):
                self.go_on(current, line, text)
            elif text and not IMPORT.match(text) and not OTHER_LINE.match(text):
                current, comment = self.begin(line, text, section, comment), []
            else:
                comment = []

    def in_sections(self):
        """Each line with its number, what it is without the margin of its section, and the head of that section."""
        section, is_open = (), False
        for line in enumerate(self.lines, 1):
            begins = line[1].startswith(SECTION)
            if begins or is_open:
                section = (line,) if begins else (*section, line)
                is_open = not line[1].endswith(" where")
                continue
            if line[1] and not line[1].startswith(" "):
                section = ()
            yield line, line[1][2:] if section else line[1], section

    def begin(self, line, text, section, comment):
        """The definition that begins in this line, or that goes on there with an equation."""
        kinds, name, rest = HEAD.match(text).groups()
        kind = next((it for it in ("record", "data") if it in kinds.split()), "function")
        if kind == "function" and not rest.startswith(" :"):
            definition = self.equation_of(text)
            if definition is None:
                self.fault(line[0], "what is defined here?")
            else:
                definition.groups.append([*comment, line])
            return definition
        definition = self.owners[name] = Definition(self, kind, name, comment)
        definition.section = section
        definition.groups.append([line])
        self.add_operator(name)
        return definition

    def equation_of(self, text):
        """The definition that an equation belongs to. Its name comes first, or stands between the operands."""
        words = text.split(" = ")[0].split()
        names = [words[0], *(self.operators.get(it) for it in words)]
        return next((self.owners[it] for it in names if it in self.owners), None)

    def go_on(self, definition, line, text):
        if definition is None:
            self.fault(line[0], "what goes on here?")
            return
        definition.groups[-1].append(line)
        part = PART.match(text)
        names = part[1].split() if part else []
        if definition.kind == "record":
            self.tree.fields.update(names)
        elif definition.kind == "data":
            definition.constructors.update(names)
            self.owners.update(dict.fromkeys(names, definition))

    def name_all(self, definition):
        scope = Scope(self, definition.known)
        head, *equations = map(tokens_of, definition.groups)
        _, names = Walk(scope, tokens_of(definition.section)).brackets(2, set())
        if definition.kind == "function":
            Walk(scope, head).whole(place_of(head, ":") + 1, names)
        else:
            self.name_parts(scope, head, definition.kind, names)
        for tokens in equations:
            Walk(scope, tokens).equation(names)

    def name_parts(self, scope, tokens, kind, names):
        """What a record or a data type names: in its arguments, which its parts know, in its type and in its parts."""
        where = place_of(tokens, "where")
        walk = Walk(scope, tokens[:where])
        at, names = walk.brackets(place_of(tokens, kind) + 2, names)
        walk.whole(at + 1, names)
        for row in rows_of(tokens[where + 1:]):
            colon = place_of(row, ":")
            Walk(scope, row).whole(colon + 1, names)
            if kind == "record":
                names = names | {it.text for it in row[:colon]}
