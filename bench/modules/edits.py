"""The edits of a crate: what each changes, and the texts over which it is tried.

Most are tried on copies: beside a function stands a copy of it for each of its edits, under a name of its own, with the function's
contract, the edited body and copies of its proof files. So nothing that is there changes, and one run tries all of them. The others change
the function itself, in place, and have a run each.

An edit is a file `FUNCTION.WHAT_IT_DOES.edit` with a line `file: src/lib.rt` and then pairs of lines `old: TEXT` and `new: TEXT`. Each
old text stands exactly once in the file as the pairs before it left it. A line `goal: NAME` may name the goal that it breaks, as a check
prints it. At that goal the prover searches once, as `search rules`, and not by all that it has."""
import os
import re

FOLDERS = ("must-fail", "edits")
FN = re.compile(r"( *)(?:pub(?:\([a-z]+\))? )?(?:const )?(?:unsafe )?fn (\w+)")
BLOCK = re.compile(r"(?:unsafe )?(?:impl|(?:pub(?:\([a-z]+\))? )?trait)\b")
CLAUSE = re.compile(r" *(?:requires|ensures|ghost|decreases)\b")
# what makes a function one that no copy can stand for: a name that others know it by, or a proof that it shares
BOUND = re.compile(r"no_mangle|cycle\(")
# the line of an edit that counts as refused also where only its proof names what it takes away
ALLOWED = "\nproof: names what this takes away\n"
# An answer that the prover refuses. Where it stands, no other run of the prover prints the answers that are missing, which nobody reads
REFUSED = "no-offer"
REFUSED_ANSWER = "%s : Type 0\n%s = tt\n" % (REFUSED, REFUSED)
LOOP = re.compile(r"^(?:(?!//).)*\b(?:for|while|loop)\b", re.M)
# what an `impl` converts, of which a check makes a part of the name of `from`, as in `FailureFromIoError::from`
CONVERSION = re.compile(r"impl(?:<.*?>)? From<([\w:]+)")


class Bad(Exception):
    """What is wrong with an edit."""


class Function:
    """A function of a crate: the lines of its file from its name to its end, and the lines of its body, if it isn't only declared."""

    def __init__(self, path, lines, first, owner, is_of_trait=False):
        self.path, self.first, self.owner, self.is_of_trait = path, first, owner, is_of_trait
        self.indent, self.name = FN.match(lines[first]).groups()
        self.body = next(at for at in range(first, len(lines)) if self.begins_or_ends(lines, at))
        is_short = not lines[self.body].endswith("{")
        self.is_declared = lines[self.body].endswith(";")
        self.last = self.body if is_short else lines.index(self.indent + "}", self.body)
        self.code = "\n".join(lines[self.body : self.last + 1])
        self.head = [it for it in lines[self.head_of(lines) : first] if not it.lstrip().startswith("//")]

    def begins_or_ends(self, lines, at):
        """Whether the body begins on this line, or a declaration, which has none, ends on it."""
        line, has_clauses = lines[at], any(map(CLAUSE.match, lines[self.first + 1 : at + 1]))
        if line.endswith(";"):
            after = lines[at + 1] if at + 1 < len(lines) else ""
            return len(after) - len(after.lstrip()) <= len(self.indent)
        return line in (self.indent + "{", self.indent + "{}") or not has_clauses and line.endswith(("{", "{}", " }"))

    def head_of(self, lines):
        """The first line of the attributes and comments above it."""
        at = self.first
        while at and lines[at - 1].strip() and not lines[at - 1].endswith(("{", " }")) and lines[at - 1] != self.indent + "}":
            at -= 1
        return at

    def calls_itself(self):
        """Whether it may call itself: the wrong body of a copy would call the right one."""
        before = {"self.", "Self::", "%s::" % self.owner} if self.owner else {""}
        return any(re.search(r"(?<![\w.:])%s%s\(" % (re.escape(it), self.name), self.code) for it in before)

    def may_be_copied(self):
        """Whether a copy under another name can stand beside it. A method of a trait has the trait's name and contract."""
        return not (self.is_of_trait or self.name == "main" or self.calls_itself() or BOUND.search("\n".join(self.head)))

    def ending(self):
        """The end of the name that a check prints: of a method `Type::name`, or `TypeTrait::name` where an impl of a trait has it."""
        return "::".join(filter(None, (self.owner or module_of(self.path), self.name)))


def module_of(path):
    """The module of a file of src/."""
    words = re.sub(r"^src/|\.rt$", "", path).split("/")
    return "::".join(it for it in words if it not in ("lib", "main", "mod"))


def words_of(lines, first):
    """The words of the block that begins on this line, without those in angle brackets and behind them."""
    last = next(at for at in range(first, len(lines)) if lines[at].endswith("{") or lines[at] == "where")
    header, before = " ".join(lines[first : last + 1]), None
    while before != header:
        header, before = re.sub(r"<[^<>]*>", "", header.replace("->", "")), header
    words = re.findall(r"(?:\w+::)*(\w+)", re.split(r"\bwhere\b|:(?!:)|\{", header)[0].replace("pub ", ""))
    return [it for it in words if it != "unsafe"]


def owner_of(lines, first):
    """What a check calls the block that begins on this line: `Type`, or `TypeTrait` of the impl of a trait."""
    names = words_of(lines, first)[1:]
    return names[2] + names[0] if "for" in names[1:2] else names[0]


def is_trait(lines, first):
    """Whether the block that begins on this line is a trait or the impl of one."""
    words = words_of(lines, first)
    return "trait" in words[:1] or "for" in words[2:3]


def functions_of(path, text):
    """The functions of a file of src/."""
    lines, found, owner, is_of_trait = text.split("\n"), [], None, False
    for at, line in enumerate(lines):
        if BLOCK.match(line):
            owner, is_of_trait = (None, False) if line.endswith("}") else (owner_of(lines, at), is_trait(lines, at))
        elif line == "}":
            owner = None
        elif FN.match(line) and len(FN.match(line).group(1)) == (4 if owner else 0):
            found.append(Function(path, lines, at, owner, bool(owner) and is_of_trait))
    return found


class Edit:
    """An edit of a crate. `changed` has the functions whose bodies it changes; it is none where it changes anything else, too."""

    def __init__(self, crate, folder, file):
        self.crate, self.folder, self.path = crate, folder, os.path.join(crate.folder, folder, file)
        self.name, self.where = file[: -len(".edit")], os.path.join("crates", crate.name, folder, file)
        with open(self.path, encoding="utf-8") as it:
            self.text = it.read()
        self.file, self.pairs, self.goal = self.read()
        if self.file not in crate.texts:
            raise Bad("%s names %s, which the crate doesn't have" % (self.where, self.file))
        if self.goal and ALLOWED in self.text:
            raise Bad("%s names a goal, and only its proof names what it takes away" % self.where)
        self.lines = self.lines_of(crate.texts[self.file])
        found = {crate.function_at(self.file, line) for line in self.lines}
        self.changed = None if None in found else found

    def read(self):
        """Its file, the pairs of old and new texts, and the goal that it names, if it names one."""
        file, old, pairs, goal = None, None, [], None
        for line in self.text.split("\n"):
            word, _, rest = line.partition(":")
            rest = rest[1:] if rest.startswith(" ") else rest
            if word == "file":
                file = rest.strip()
            elif word == "goal":
                goal = rest.strip()
            elif word == "old":
                old = rest
            elif word == "new" and old is not None:
                pairs.append((old, rest))
                old = None
        if not file or not pairs or old is not None:
            raise Bad("%s isn't a file with pairs of `old:` and `new:`" % self.where)
        return file, pairs, goal

    def lines_of(self, text):
        """The lines of its file that it changes, by their number, and what it makes of them."""
        made = text
        for old, new in self.pairs:
            if made.count(old) != 1:
                raise Bad("%s: the text of `old:` stands %d times in %s" % (self.where, made.count(old), self.file))
            made = made.replace(old, new)
        # an old and a new text are one line each, so the others keep their numbers
        found = {at: new for at, (old, new) in enumerate(zip(text.split("\n"), made.split("\n"))) if old != new}
        if not found:
            raise Bad("%s changes nothing" % self.where)
        return found


class Copied:
    """A copy of a function under a name of its own, with the body that an edit gives it; with no edit the function's own body. At these
    goals of it the prover searches once."""

    def __init__(self, function, name, edit=None, goals=()):
        self.function, self.name, self.edit, self.owner, self.path = function, name, edit, function.owner, function.path
        self.goals = goals

    def ending(self):
        return Function.ending(self)

    def place(self, texts):
        """Its file among these texts, and the numbers of its first and last line there."""
        lines, is_first = texts[self.path].split("\n"), re.compile(r"\bfn %s\b" % self.name)
        first = next(at for at, line in enumerate(lines, 1) if is_first.search(line))
        return self.path, first, first + self.function.last - self.function.first

    def answers(self, text, goals):
        """Its file of answers, made of its function's. `goals` is the module of its goals."""
        named = [it for it in self.goals if not re.search(r"^(?:pub )?%s :" % re.escape(it), text, re.M)]
        # a `use` line stands above all else
        uses = ["use Rattle.std.proofs.Common as judge\n", "use %s as judge-goals\n" % goals] if named else []
        added = ["pub %s : judge-goals.%s\n%s c = search judge.rules\n" % (it, it, it) for it in named]
        return "\n".join(["".join(uses) + text, *added, *[REFUSED_ANSWER] * bool(self.edit)]).lstrip("\n")

    def lines(self, text):
        """Its lines, made of those of the function's file."""
        lines, changed = text.split("\n"), self.edit.lines if self.edit else {}
        code = [changed.get(at, lines[at]) for at in range(self.function.first, self.function.last + 1)]
        code[0] = re.sub(r"\bfn %s\b" % self.function.name, "fn " + self.name, code[0], count=1)
        return ["", *self.function.head, *code]


class Crate:
    """The texts, functions and edits of a crate."""

    def __init__(self, top, name):
        self.name, self.folder = name, os.path.join(top, "crates", name)
        self.texts = {it: text for part in ("src", "specs", "proofs") for it, text in self.files_of(part)}
        found = [it for path, text in self.texts.items() if path.endswith(".rt") for it in functions_of(path, text)]
        # a check names no declaration of a trait, which has no body
        self.functions = [it for it in found if it.code.endswith("}")]
        for it in self.functions:
            above = self.texts[it.path].split("\n")[: it.first]
            given = next(filter(None, map(CONVERSION.match, reversed(above))), None) if it.name == "from" else None
            if given:
                it.owner += "".join(word[0].upper() + word[1:] for word in given.group(1).split("::"))
        self.edits = [Edit(self, folder, it) for folder in FOLDERS for it in self.edits_in(folder)]

    def files_of(self, part):
        for at, _, files in os.walk(os.path.join(self.folder, part)):
            for it in sorted(files):
                path = os.path.join(at, it)
                with open(path, encoding="utf-8") as file:
                    yield os.path.relpath(path, self.folder), file.read()

    def edits_in(self, folder):
        at = os.path.join(self.folder, folder)
        return sorted(it for it in os.listdir(at) if it.endswith(".edit")) if os.path.isdir(at) else []

    def function_at(self, path, line):
        """The function whose body has this line."""
        return next((it for it in self.functions if it.path == path and it.body <= line <= it.last), None)

    def edited(self, edit):
        """The crate's texts, by their paths, with this edit in place."""
        lines = self.texts[edit.file].split("\n")
        for line, new in edit.lines.items():
            lines[line] = new
        return {**self.texts, edit.file: "\n".join(lines)}

    def outlines(self, *whole):
        """The crate's texts without the bodies of its functions, which no proof of another function reads. These files are whole."""
        made = dict(self.texts)
        for path in [it for it in made if it.endswith(".rt") and it not in whole]:
            lines = made[path].split("\n")
            for it in reversed([it for it in self.functions if it.path == path]):
                # the line on which a body begins may have the function's name and types
                del lines[it.body + 1 : it.last + 1]
            made[path] = "\n".join(lines)
        return made

    def may_be_copied(self, edit):
        """Whether an edit can be tried on a copy: it changes one function, and no other's proof rests on what is made of that one."""
        function = min(edit.changed, key=Function.ending)
        beside = "\n".join(text for path, text in self.texts.items() if "/%s/" % function.name not in path)
        is_cited = re.search(r"\bRattle\.%s\.proofs\.(?:\w+\.)*%s\.[A-Z]" % (self.name, function.name), beside)
        return len(edit.changed) == 1 and function.may_be_copied() and not is_cited

    def copies(self, edits):
        """A copy for each of these edits, and by each a control: a copy of its function as it stands, which has to be proved. Where a
        function has no proof files, which its copy might lack, another's control may stand for it. A control has the answers at the goals
        that the edits of its function name, too. So none is refused for having one search there."""
        text = "\n".join(self.texts.values())
        stem = next(it for it in ("edit%s" % ("x" * more) for more in range(99)) if "_" + it not in text)
        made = [Copied(min(it.changed, key=Function.ending), "", it, [it.goal] if it.goal else []) for it in edits]
        for number, it in enumerate(made):
            it.name = "%s_%s%d" % (it.function.name, stem, number)
        controlled = {it.function for it in made if it.goals or self.proofs_of(it.function)}
        shared = min((it.function for it in made), key=lambda it: (it not in controlled, len(it.code)))
        goals = {it: sorted({goal for one in made if one.function is it for goal in one.goals}) for it in {shared, *controlled}}
        controls = {it: Copied(it, "%s_%s" % (it.name, stem), None, goals[it]) for it in goals}
        return {it: controls.get(it.function, controls[shared]) for it in made}

    def leaf(self, changed):
        """A function that rests on none of these changed ones, if there is one: of those that name the fewest others the shortest."""
        names, endings = {it.name for it in self.functions}, [it.ending() for it in self.functions]
        named = {it: names & {*re.findall(r"\w+", it.code)} for it in self.functions}
        above, before = {it.name for it in changed}, set()
        while above != before:
            above, before = above | {it.name for it in self.functions if named[it] & above}, above
        may_be = [it for it in self.functions if it.name not in above and endings.count(it.ending()) == 1]
        return sorted(may_be, key=lambda it: (len(named[it]), len(it.code)))[:1]

    def proofs_of(self, function):
        """The folders of a function's proof files: one, or none. A method's stands under the module that declares its type."""
        end = "/".join(["", *function.ending().split("::")[-2 if function.owner else 0 :]])
        found = {os.path.dirname(it) for it in self.texts if it.startswith("proofs/") and os.path.dirname("/" + it).endswith(end)}
        return [it for it in found if function.owner or "/".join(it.split("/")[1:]) == end[1:]]

    def with_copies(self, copies):
        """The crate's texts, by their paths, with these copies and their proof files."""
        made = {path: text.split("\n") for path, text in self.texts.items()}
        for it in sorted(copies, key=lambda it: -it.function.last):
            after = it.function.last + 1
            made[it.path][after:after] = it.lines(self.texts[it.path])
        found = {path: "\n".join(lines) for path, lines in made.items()}
        for it in copies:
            found.update(self.proofs_of_copy(it))
        return found

    def place_of_proofs(self, function):
        """Where a function's proof files stand, or would stand. None where that isn't sure."""
        found, modules = self.proofs_of(function), {module_of(function.path)}
        if function.owner:
            declared = re.compile(r"^(?:pub(?:\([a-z]+\))? )?(?:struct|enum) %s\b" % function.owner, re.M)
            modules = {module_of(path) for path, text in self.texts.items() if path.endswith(".rt") and declared.search(text)}
        words = ["proofs", *"::".join(modules).split("::"), function.owner, function.name]
        return found[0] if found else "/".join(filter(None, words)) if len(modules) == 1 else None

    def proofs_of_copy(self, copied):
        """The proof files of a copy, by their paths: its function's, and the answers that the judge adds."""
        folder = self.place_of_proofs(copied.function)
        if not folder:
            return {}
        to = os.path.join(os.path.dirname(folder), copied.name)
        old, new = ("Rattle.%s.%s" % (self.name, at.replace("/", ".")) for at in (folder, to))
        texts = {os.path.basename(it): text for it, text in self.texts.items() if os.path.dirname(it) == folder}
        made = {it: re.sub(re.escape(old) + r"(?![\w'-])", new, text) for it, text in texts.items()}
        # a proof by hand takes no answers, and beside a loop without any file they might ask for one of invariants
        may_add = "Proof.antt" not in made if made else not LOOP.search("\n".join(copied.lines(self.texts[copied.path])))
        if may_add and (copied.edit or copied.goals):
            made["Answers.antt"] = copied.answers(made.get("Answers.antt", ""), new + ".Goals")
        return {os.path.join(to, it): text for it, text in made.items()}
