"""edits.tsv, the ledger: which edits the prover refused, each with the sums of all that this rests on. `bin/edits --write` alone writes it.

Each line has an edit, the number of the tree that it was tried over, and two sums: of what is its own, and of all that its verdict rests
on. An edit that the prover didn't come to has `left` in the place of the second, and the number of the first tree for which that is so. The
line `tree` has the number of the tree that was written last. A line whose sum doesn't fit, or that can't be read, is as if it weren't
there. So where a merge leaves the lines of both sides, those that fit count."""
import functools
import hashlib
import os
import re

import prover

NAME, TREE, LEFT = "edits.tsv", "tree", "left"
LINE = re.compile(r"^([^\t\n]+)\t(\d+)\t(\w+)\t(\w+)$", re.M)
# how many edits may be left, and for how many trees. A change of `model` makes nearly all lines stale, and has all proofs and `must-fail/`
# tried anew; of two processors' three hours that leaves time for a quarter of the edits
MOST_LEFT, LONGEST = 1000, 3
# how many of the others a gate tries, and how many of these at most are lines of the last tree
SAMPLE, LATEST = 40, 20
# What the judge means by "refused", as a number. Raise it by one whenever a change of edits.py, judging.py, trials.py or prover.py may
# change the verdict on any edit, and where in doubt: then each edit is tried again. A change that makes the judge faster, or says the same
# in other words, leaves it
MEANING = 1
LOGIC = re.compile(r"\blogic \w+")
OF_A_FUNCTION = re.compile(r"proofs/.*/")


def sum_of(*parts):
    return hashlib.sha256(repr(parts).encode()).hexdigest()[:40]


class Sums:
    """The sums of texts on which the verdict on an edit rests. Nothing has to be built for them, and they are the same on each machine."""

    def __init__(self, graph, crates):
        self.graph, self.crates = graph, crates
        logic = LOGIC.findall(open_text(os.path.join(prover.toolchain().KIT, "KIT-ID")))
        self.judge = sum_of(logic, MEANING)
        self.of_library, self.beside = functools.lru_cache(None)(self.of_library), functools.lru_cache(None)(self.beside)

    def own(self, edit):
        """Of the edit, the file of its function, and the judge."""
        return sum_of(self.judge, edit.name, edit.text, edit.crate.texts[edit.file])

    def whole(self, edit):
        return sum_of(self.own(edit), self.beside(edit.crate, edit.file))

    def beside(self, crate, file):
        """Of what else a check of a function in this file reads: the crate's other contracts, definitions and proofs, and those below."""
        return sum_of(sorted(crate.outlines(file).items()), [self.of_library(it) for it in self.graph.below([crate.name])])

    def of_library(self, name):
        """Of what other crates read of this one: all but the bodies of functions, and their proofs, which stand in folders of their own."""
        texts = [it for it in self.crates[name].outlines().items() if not OF_A_FUNCTION.match(it[0])]
        return sum_of(self.graph.lines[name], sorted(texts))


class Ledger:
    """The lines of a ledger, and what they say of these edits, which are all of the repository."""

    def __init__(self, path, sums, edits):
        self.path, self.sums, self.edits = path, sums, edits
        self.read()
        self.tree = sum_of([(it.where, sums.whole(it)) for it in edits])
        self.refused, self.left = self.with_sum(sums.whole), {}
        for it, number in self.with_sum(lambda edit: LEFT).items():
            if it not in self.refused:
                self.left[it] = number
        self.new = [it for it in edits if it not in self.refused and it not in self.left]

    def read(self):
        self.lines = {}
        for where, number, *its_sums in LINE.findall(open_text(self.path) if os.path.isfile(self.path) else ""):
            self.lines.setdefault(where, set()).add((int(number), *its_sums))
        self.number, _, self.written = max(self.lines.pop(TREE, [(0, "", "")]))

    def with_sum(self, wanted):
        """The edits with a line of which both sums are as wanted, and that line's number."""
        found = {}
        for it in self.edits:
            for number, *its_sums in self.lines.get(it.where, ()):
                if its_sums == [self.sums.own(it), wanted(it)]:
                    found[it] = number
        return found

    def too_long(self):
        """Those that have been left for too many trees."""
        return [it for it, number in self.left.items() if self.number - number > LONGEST]

    def sample(self):
        """Edits that the ledger calls refused. They are drawn by a sum over all, so that nobody chooses them."""
        by = sum_of(self.tree, sorted((where, sorted(lines)) for where, lines in self.lines.items()))
        drawn = sorted(self.refused, key=lambda it: sum_of(by, it.where))
        latest = [it for it in drawn if self.refused[it] == self.number][:LATEST]
        return (latest + [it for it in drawn if it not in latest])[:SAMPLE]

    def begin(self):
        """Before this tree's edits are tried: those that aren't refused are left, but for the new ones and those whose own sum changed."""
        if self.written != self.tree:
            self.number, self.written = self.number + 1, self.tree
        lines = {}
        for it in self.edits:
            if it in self.refused:
                lines[it.where] = {(self.refused[it], self.sums.own(it), self.sums.whole(it))}
            elif any(own == self.sums.own(it) for _, own, _ in self.lines.get(it.where, ())):
                lines[it.where] = {(self.left.get(it, self.number), self.sums.own(it), LEFT)}
        self.lines = lines
        self.write()

    def note(self, outcomes):
        """Writes what came of edits. One that isn't refused gets no line, so each gate tries it. Another run may have written meanwhile."""
        self.read()
        for edit, why in outcomes.items():
            self.lines.pop(edit.where, None)
            if not why:
                self.lines[edit.where] = {(self.number, self.sums.own(edit), self.sums.whole(edit))}
        self.write()

    def write(self):
        lines = ["%s\t%d\t%s\t%s\n" % (where, *line) for where, those in sorted(self.lines.items()) for line in sorted(those)]
        part = "%s.%d" % (self.path, os.getpid())
        with open(part, "w", encoding="utf-8") as file:
            file.writelines(["%s\t%d\tall\t%s\n" % (TREE, self.number, self.written or "none"), *lines])
        os.replace(part, self.path)


def open_text(path):
    with open(path, encoding="utf-8") as file:
        return file.read()
