"""What a run of the prover says of the functions that edits change."""
import re

from edits import REFUSED

VERDICT = re.compile(r"^(?:fn|impl|struct|enum|trait) (\S+): (.*)$", re.M)
# a goal that isn't shown, by the proof file that should show it
UNSHOWN = re.compile(r"^\./(proofs/\S+)/[^/\s]+:\d+:\d+: error: (.*)$", re.M)
# anything that is wrong with a proof file
WRONG = re.compile(r"^\./(proofs/\S+)/[^/\s:]+:(?:\d+:\d+:)? error: (.*)$", re.M)
# a proof file that names what an edit took away, or what cites that proof, says nothing of a contract
IS_GONE = re.compile(r"has no field|is not in scope|has no `|was not admitted")
# a goal that has no answer and isn't shown, by its place in the source
OPEN = re.compile(r"^note: (src/\S+):(\d+):\d+: it is not proved that ", re.M)
# a goal for which no proof file is there
UNANSWERED = re.compile(r"no proof: expected answers in .*; `\w+` did not prove `")
# what is said of an edit, whatever other edits are tried beside it
PROVED, GONE = "NOT REFUSED, and the crate is proved", "NOT REFUSED by a goal, as only its proof names what the edit took away"
NOT_TRIED = "NOT TRIED: "
ENDED = re.compile(r"^only=\d+ proved=\d+$", re.M)


class Judgement:
    """What a run said of each function that it was asked for, and of those that these call."""

    def __init__(self, status, said):
        self.has_ended = status in (0, 1) and bool(ENDED.search(said))
        self.verdicts = dict(VERDICT.findall(said))
        # what the judge itself has refused says nothing
        self.errors, wrong = ([it for it in one.findall(said) if not it[1].startswith("`%s`:" % REFUSED)] for one in (UNSHOWN, WRONG))
        self.wrong = {folder for folder, _ in wrong}
        self.open = {(path, int(line)) for path, line in OPEN.findall(said)}
        self.unshown = {folder for folder, text in self.errors if not IS_GONE.search(text)}
        self.said = said

    def fails_itself(self, name):
        """Whether a function isn't proved for a goal of its own, and not only since one that it calls isn't."""
        verdict = self.verdicts[name]
        return bool(UNANSWERED.match(verdict)) or verdict != "proved" and folder_of(name) in self.unshown

    def is_open(self, function, place):
        """Whether a copy, which stands in these lines, isn't proved for a goal that has no answer, and for nothing that its proof files
        say. Its verdict alone doesn't say that, as the judge has it refused in any case."""
        names, (path, first, last) = self.of([function]), place
        is_unproved = any(it != "proved" for it in names.values()) and not self.wrong & {*map(folder_of, names)}
        return is_unproved and any((path, at) in self.open for at in range(first, last + 1))

    def of(self, functions):
        """The verdicts on these functions, and on the closures in them."""
        return {name: it for name, it in self.verdicts.items() if any(is_part(name, one) for one in functions)}

    def why_not(self, functions, changed, controls, places):
        """Why this run doesn't show that the edit of these functions is refused; nothing where it does. The run asked for the functions
        that its edits change, and for controls. `places` has the lines of copies."""
        own, changed = self.of(functions), self.of(changed)
        bad = [name for name, it in self.verdicts.items() if it != "proved" and name not in changed]
        if not self.has_ended:
            return NOT_TRIED + next((it for it in self.said.split("\n") if "error" in it), self.said[-200:].strip())[:300]
        if not own or not all(self.of([it]) for it in controls):
            return NOT_TRIED + "the run says nothing of a function that it was asked for"
        if all(it == "proved" for it in own.values()):
            return PROVED
        if any(map(self.fails_itself, own)) or any(self.is_open(it, places[it]) for it in functions if it in places):
            return "NOT REFUSED by itself: %s, which is unchanged, isn't proved: %s" % (bad[0], self.verdicts[bad[0]][:200]) if bad else ""
        gone = [text for folder, text in self.errors if folder in map(folder_of, own)]
        if gone:
            return "%s: change a value and keep the names: %s" % (GONE, gone[0][:300])
        return "NOT REFUSED by itself: " + "; ".join("%s: %s" % it for it in own.items() if it[1] != "proved")[:300]


def folder_of(name):
    """Where the proof files of a function stand."""
    return "proofs/" + "/".join(name.split("::")[1:])


def is_part(name, function):
    """Whether a check prints this name of the function, or of a closure in it."""
    plain = "::" + name.replace("::fn::", "::").replace("+", "::") + "::"
    return "::%s::" % function.ending() in plain
