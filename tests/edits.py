#!/usr/bin/env python3
"""Tests of bin/edits, of its ledger and of the gate's limit, on small repositories of their own. Some of these have a judge that is made
up, and is slow where a test wants that. They need no program, but the toolchain.
edits.py [NEWSD [NAME..]]"""
import contextlib
import os
import re
import shutil
import subprocess
import sys
import tempfile
import time

TOP = os.path.dirname(os.path.dirname(os.path.abspath(__file__)))
sys.dont_write_bytecode = True
sys.path.insert(0, os.path.join(TOP, "bench", "modules"))
import prover  # noqa: E402
from edits import functions_of  # noqa: E402
from judging import GONE, Judgement  # noqa: E402
from pages import main  # noqa: E402
from toolchain import keeps  # noqa: E402

SOURCE = """//! Sums.
#![tactic(auto)]

ghost use Rattle.std.specs.Prelude.{◌≡◌, ◌+◌, ◌<◌};

const STEP: u64 = 1;

/// The next number.
pub fn next(n: u64) -> u64
    requires { n < 100 }
    ensures { result ≡ n + 1 }
{
    // by a step
    n + STEP
}

/// The next number but one.
pub fn next_but_one(n: u64) -> u64
    requires { n < 90 }
    ensures { result ≡ n + 2 }
{
    // by two steps
    next(next(n))
}

/// A number that is at most 1. It has a loop, and no proof files.
pub fn turned(n: u64) -> u64
    ensures { result < 2 }
{
    for at in 0..n {
        // this one
        if at == 1 {
            return at;
        }
    }
    0
}
"""
# a crate above it
ABOVE = """//! More sums.
#![tactic(auto)]

ghost use Rattle.std.specs.Prelude.{◌≡◌, ◌+◌, ◌<◌};

use sums::next;

/// The number that follows.
pub fn following(n: u64) -> u64
    requires { n < 100 }
    ensures { result ≡ n + 1 }
{
    next(n)
}
"""
# edits by their names: the folder, the old text, the new one, and what other lines it has
WRONG = {
    "next.stays": ("edits", "n + STEP", "n"),
    "next_but_one.is_the_next": ("must-fail", "next(next(n))", "next(n)"),
}
HARMLESS = {"next_but_one.changes_words": ("edits", "// by two steps", "// by steps")}
# one that names a goal, and one that doesn't
GOAL = "goal: returns"
BY_NAME = {
    "next.stays": ("edits", "n + STEP", "n", GOAL),
    "next_but_one.is_the_next": ("edits", "next(next(n))", "next(n)"),
}
# how often the prover says what of these
ANSWERED = [("help: write ./proofs", 0), ("help: add these lines", 0), ("`no-offer`: expected", 2), ("`: `search`: no proof of", 1),
            ("it is not proved that", 1), ("_edit: proved", 1)]
# edits that change words: one names a goal that is shown, one a goal that isn't there, and one is of a function with a loop
SHOWN = {
    "next_but_one.changes_words": ("edits", "// by two steps", "// by steps", GOAL),
    "next.changes_words": ("edits", "// by a step", "// by steps", "goal: no-such-goal"),
    "turned.changes_words": ("edits", "// this one", "// that one"),
}
# beside it another stands that no measure shows to end
ENDLESS = {"next.never_ends": ("edits", "    n + STEP", "    let mut m = n; while m == n { m = n; } m")}
# what is wrong with an edit, and the words that bin/edits has for it
BAD = [
    ({**HARMLESS, **ENDLESS}, "next_but_one.changes_words.edit: NOT REFUSED, and"),
    ({"next.is_no_code": ("edits", "n + STEP", "n + ")}, "next.is_no_code.edit: NOT TRIED"),
    ({"STEP.is_two": ("edits", "STEP: u64 = 1", "STEP: u64 = 2")}, "STEP.is_two.edit changes more than bodies"),
    ({"next.no_such_text": ("edits", "m + STEP", "m")}, "next.no_such_text.edit: the text of `old:` stands 0 times"),
    ({"next.twice": ("edits", "STEP", "0")}, "next.twice.edit: the text of `old:` stands 2 times"),
    ({"next.same": ("edits", "n + STEP", "n + STEP")}, "next.same.edit changes nothing"),
    ({"next.both": ("edits", "n + STEP", "n", GOAL, "proof: names what this takes away")}, "next.both.edit names a goal, and"),
]
# a judge that is made up: it refuses each body that is `n`, and on copies anything, where it is asked to
JUDGE = r'''

def check(crate, folder, more):
    seconds = float(os.environ.get("JUDGE_SECONDS", "0"))
    if ends is not None and time.monotonic() + seconds > ends:
        time.sleep(max(0, ends - time.monotonic()))
        raise Late
    time.sleep(seconds)
    with open(os.path.join(folder, "src", "lib.rt")) as file:
        bodies = re.findall(r"fn (\w+).*?\n{\n *(.*?)\n}", file.read(), re.S)
    said = ["only=1 proved=1"]
    for name, body in bodies:
        is_refused = body == "n" or name[-1].isdigit() and "JUDGE_REFUSES" in os.environ
        why = "no proof: expected answers in it; `grind` did not prove `" if is_refused else "proved"
        said.append("fn %s::%s: %s" % (crate.name, name, why))
    return Ran(1, "\n".join(said), 0)
'''
# what is added to the prover, so that a test reads what it says
HEARD = r'''

unheard = check


def check(crate, folder, more):
    ran = unheard(crate, folder, more)
    with open(os.environ["HEARD"], "a") as file:
        file.write(ran.said)
    return ran
'''
# what it says of a copy in lines 10 to 14 that has no proof but for an answer that the judge refuses, and of one that has
SAID = """./proofs/f_edit0/Answers.antt:9:3: error: `no-offer`: expected another type
%sfn sums::f_edit0: %s
fn sums::f_edit: proved
only=2 proved=1"""
UNSHOWN = "note: src/lib.rt:%d:5: it is not proved that what the function ensures holds when it returns (`returns`)\n"
# a crate for it, and its edits, by the old and the new text
SUM = """pub fn next(n: u64) -> u64
    ensures { result ≡ n + 1 }
{
    1 + n
}

pub fn second(n: u64) -> u64
    ensures { result ≡ n + 2 }
{
    2 + n
}
"""
STAYS = {"next.stays": ("1 + n", "n"), "second.stays": ("2 + n", "n")}
# a toolchain that is made up: of the crate `low` it takes each definition but `two = 3`, and of `high` each but `one = 2`
RT = r"""#!/usr/bin/env python3
import os
with open("../low/specs/Numbers.antt") as file:
    text = file.read()
crate = os.path.basename(os.getcwd())
is_wrong = "two = 3" in text if crate == "low" else "one = 2" in text
# a crate below is proved first
print("logic=proved")
print("./proofs/Laws.antt:1:1: error: `law`: no\nlogic=not-proved" if is_wrong else "logic=proved")
"""
RIGHT = "crates/sum0/edits/next.turns_it_round.edit"


@contextlib.contextmanager
def repository(edits):
    """A repository with these edits, and the scripts of this one."""
    with tempfile.TemporaryDirectory(prefix="newsd-edits-test-") as top:
        for folder in (".ci", "bin", os.path.join("bench", "modules")):
            shutil.copytree(os.path.join(TOP, folder), os.path.join(top, folder), ignore=shutil.ignore_patterns("__pycache__"))
        write(top, "crates.txt", "sums:\n")
        write(top, "HANDLES", "Handles allowed: none.\n")
        write(top, "crates/sums/src/lib.rt", SOURCE)
        for name, (folder, old, new, *more) in edits.items():
            lines = ["file: src/lib.rt", "old: " + old, "new: " + new, *more]
            write(top, "crates/sums/%s/%s.edit" % (folder, name), "".join("%s\n" % it for it in lines))
        yield top


def write(top, path, text):
    os.makedirs(os.path.dirname(os.path.join(top, path)), exist_ok=True)
    with open(os.path.join(top, path), "w") as file:
        file.write(text)


def changed(top, path, old, new):
    with open(os.path.join(top, path)) as file:
        text = file.read()
    assert old in text, (old, text)
    write(top, path, text.replace(old, new))


def ran(top, *words, **env):
    """The status of a command, and what it said."""
    how = {"stdin": subprocess.DEVNULL, "stdout": subprocess.PIPE, "stderr": subprocess.STDOUT, "text": True}
    done = subprocess.run(words, cwd=top, env={**os.environ, **env}, **how)
    return done.returncode, done.stdout


def tried(top, *words, **env):
    return ran(top, os.path.join(top, "bin", "edits"), *words, **env)


def functions_are_found_in_a_text():
    found = functions_of("src/lib.rt", SOURCE)
    if [(it.name, it.body, it.last) for it in found] != [("next", 11, 14), ("next_but_one", 20, 23), ("turned", 28, 36)]:
        yield "found %s" % [(it.name, it.body, it.last) for it in found]


def wrong_bodies_are_refused_once():
    with repository(WRONG) as top:
        for words, last in ((["--write"], 2), ([], 0), (["--all"], 2)):
            status, said = tried(top, *words)
            if status or not said.endswith("\n%d passed, 0 failed\n" % last):
                yield "%s: status %d: %s" % (words, status, said)


def what_was_proved_is_kept_while_it_fits():
    if keeps(prover.toolchain()):
        return
    with repository({}) as top, tempfile.TemporaryDirectory(prefix="newsd-edits-test-") as cache:
        write(top, "crates.txt", "sums:\nmore: sums\n")
        write(top, "crates/more/src/lib.rt", ABOVE)
        other, wrong = SOURCE.replace("// by a step", "// by one step"), SOURCE.replace("n + STEP", "n + STEP + 1")
        for source, kept, last in ((SOURCE, 0, "2 passed, 0 failed"), (SOURCE, 2, "2 passed, 0 failed"),
                                   (other, 0, "2 passed, 0 failed"), (wrong, 0, "0 passed, 2 failed"), (SOURCE, 2, "2 passed, 0 failed")):
            write(top, "crates/sums/src/lib.rt", source)
            _, said = ran(top, os.path.join(top, "bin", "rt-ci"), XDG_CACHE_HOME=cache)
            if said.count("kept from an earlier run") != kept or not said.endswith(last + "\n"):
                yield "not %d kept, or not `%s`: %s" % (kept, last, said)


def bad_edits_fail_by_their_names():
    for edits, words in BAD:
        with repository({**WRONG, **edits}) as top:
            status, said = tried(top)
            if not status or words not in said:
                yield "status %d, and no `%s`: %s" % (status, words, said)


@contextlib.contextmanager
def heard(edits):
    """A repository with these edits, and the file of what the prover says in it."""
    with repository(edits) as top:
        with open(os.path.join(top, "bench", "modules", "prover.py"), "a") as file:
            file.write(HEARD)
        yield top, os.path.join(top, "heard")


def read(path):
    with open(path) as file:
        return file.read()


def a_named_goal_is_searched_for_once_and_no_answers_are_offered():
    with heard(BY_NAME) as (top, said_in):
        status, said = tried(top, HEARD=said_in)
        if status or "sums: 2 of 2 refused, in 1 runs" not in said:
            yield "status %d: %s" % (status, said)
        prover_said = read(said_in)
        for words, times in ANSWERED:
            if prover_said.count(words) != times:
                yield "`%s` stands %d times, not %d: %s" % (words, prover_said.count(words), times, prover_said)


def a_named_goal_that_is_shown_refuses_no_edit():
    with repository(SHOWN) as top:
        status, said = tried(top)
        for name in SHOWN:
            if "%s.edit: NOT REFUSED, and the crate is proved" % name not in said:
                yield "status %d, and nothing of %s: %s" % (status, name, said)


def a_control_is_searched_for_as_the_copies_are():
    """The answer at a named goal shows it of no body. So no copy is refused by it, and each edit is tried in place, with all searches."""
    words = "next_but_one.changes_words"
    with repository({"next.stays": BY_NAME["next.stays"], words: SHOWN[words]}) as top:
        changed(top, "bench/modules/edits.py", "search judge.rules", "tt")
        status, said = tried(top)
        if not status or words + ".edit: NOT REFUSED, and" not in said or "stays.edit" in said or "in 3 runs" not in said:
            yield "status %d: %s" % (status, said)


def a_copy_is_refused_by_what_is_open_in_its_own_lines():
    copy, control, place = Named("f_edit0"), Named("f_edit"), ("src/lib.rt", 10, 14)
    gone = "./proofs/f_edit0/Answers.antt:1:1: error: `returns`: `c` has no field `left`\n"
    private = "./proofs/f_edit0/Answers.antt: error: `returns` is private\n"
    refused_not, bare = "NOT REFUSED by itself", "not proved"
    for before, verdict, wanted in ((UNSHOWN % 10, bare, ""), (UNSHOWN % 14, bare, ""), (UNSHOWN % 9, bare, refused_not),
                                    (UNSHOWN % 15, bare, refused_not), (UNSHOWN % 10, "proved", "NOT REFUSED, and"),
                                    ("", bare, refused_not), (gone + UNSHOWN % 10, bare, GONE),
                                    (private + UNSHOWN % 10, bare, refused_not)):
        for end, other in (("", None), ("fn sums::g: not proved\n", refused_not)):
            said = SAID % (before + end, verdict)
            why = Judgement(1, said).why_not([copy], [copy], [control], {copy: place})
            meant = other if other and wanted == "" else wanted
            if not why.startswith(meant) or bool(why) != bool(meant):
                yield "%s, and not %s: %s" % (why, meant, said)


class Named:
    """A function of which a check says something."""

    def __init__(self, name):
        self.name = name

    def ending(self):
        return self.name


def one_that_is_refused_for_being_a_copy_is_tried_in_place():
    """The copies have a contract that no body meets, so the unchanged ones aren't proved either."""
    with repository({"next.stays": WRONG["next.stays"], **HARMLESS}) as top:
        changed(top, "bench/modules/edits.py", "*self.function.head, *code]", "*(it.replace('≡ n +', '≡ n + n +') for it in code)]")
        status, said = tried(top)
        if not status or "changes_words.edit: NOT REFUSED, and" not in said or "stays.edit" in said or "in 3 runs" not in said:
            yield "status %d: %s" % (status, said)


@contextlib.contextmanager
def judged(crates):
    """A repository of so many crates, each above the one before it and with two edits. The prover and all but bin/edits are made up."""
    with repository({}) as top:
        shutil.rmtree(os.path.join(top, "crates"))
        write(top, "crates.txt", "".join("sum%d: %s\n" % (it, "sum%d" % (it - 1) if it else "") for it in range(crates)))
        for it in range(crates):
            write(top, "crates/sum%d/src/lib.rt" % it, SUM)
            for name, pair in STAYS.items():
                write(top, "crates/sum%d/edits/%s.edit" % (it, name), "file: src/lib.rt\nold: %s\nnew: %s\n" % pair)
        with open(os.path.join(top, "bench", "modules", "prover.py"), "a") as file:
            file.write(JUDGE)
        for path, text in (("bin/rt-ci", ":"), ("bin/test", "echo 7 passed, 0 failed"), ("tests/run", "echo system tests: 3 passed")):
            write(top, path, "#!/bin/sh\n%s\n" % text)
            os.chmod(os.path.join(top, path), 0o755)
        yield top


def ends_of(top, *rows):
    """What is wrong with the ends of these runs of bin/edits: of each its words, its status, and the numbers of its last line."""
    for words, wanted, passed, failed in rows:
        status, said = tried(top, *words)
        if status != wanted or not said.endswith("\n%d passed, %d failed\n" % (passed, failed)):
            yield "%s: not %s: status %d: %s" % (words, (wanted, passed, failed), status, said)


def a_forged_verdict_is_found_by_the_sample_and_by_all():
    with judged(6) as top:
        write(top, RIGHT, "file: src/lib.rt\nold: 1 + n\nnew: n + 1\n")
        yield from ends_of(top, (["--write"], 1, 12, 1), ([], 1, 0, 1))
        # whoever forges a line has its sums from the same scripts
        status, said = tried(top, "--write", JUDGE_REFUSES="1")
        if status:
            yield "not forged: " + said
        yield from ends_of(top, ([], 0, 0, 0), (["--rest", "60"], 1, 12, 1), (["--all"], 1, 12, 1), (["sum0"], 1, 2, 1))


def a_line_whose_sum_does_not_fit_is_as_if_it_were_not_there():
    with judged(6) as top:
        yield from ends_of(top, (["--write"], 0, 12, 0), ([], 0, 0, 0))
        with open(os.path.join(top, "edits.tsv")) as file:
            first, *lines = file.read().splitlines(True)
        # one that was forged by hand, one of another edit, one that stands twice, and a line that is none
        forged = lines[0][:-2] + ("0\n" if lines[0][-2] != "0" else "1\n")
        other = lines[1].partition("\t")[0] + "\t" + lines[0].partition("\t")[2]
        write(top, "edits.tsv", "".join([first, forged, other, lines[3], *lines[2:], "<<<<<<<\n"]))
        yield from ends_of(top, ([], 0, 2, 0), (["--write"], 0, 2, 0), ([], 0, 0, 0))
        # a body is read by its own file's edits alone, a contract by all above it
        changed(top, "crates/sum3/src/lib.rt", "    2 + n", "    2 + n + 0")
        changed(top, "crates/sum3/edits/second.stays.edit", "old: 2 + n", "old: 2 + n + 0")
        yield from ends_of(top, ([], 0, 2, 0), (["--write"], 0, 2, 0))
        changed(top, "crates/sum3/src/lib.rt", "n + 2 }", "n + 1 + 1 }")
        yield from ends_of(top, ([], 0, 6, 0), (["--write"], 0, 6, 0))
        # other words of the judge say the same; who changes what it means says so
        changed(top, "bench/modules/judging.py", "import re\n", "import re  # by other words\n")
        yield from ends_of(top, ([], 0, 0, 0))
        changed(top, "bench/modules/ledger.py", "MEANING = ", "MEANING = 1")
        yield from ends_of(top, ([], 0, 12, 0))


def what_is_left_is_tried_by_each_gate_and_not_for_ever():
    with judged(6) as top:
        yield from ends_of(top, (["--write"], 0, 12, 0))
        changed(top, "crates/sum0/src/lib.rt", "n + 2 }", "n + 1 + 1 }")
        # a run of --write that is cut short: those of sum0 changed themselves, so they may not be left
        ran(top, "timeout", "3", os.path.join(top, "bin", "edits"), "--write", JUDGE_SECONDS="9")
        yield from ends_of(top, ([], 0, 2, 0), (["--rest", "60"], 0, 10, 0), (["--rest", "0"], 0, 0, 0))
        for most, wanted in ((9, 1), (1000, 0)):
            changed(top, "bench/modules/ledger.py", "MOST_LEFT, LONGEST = %d," % (1009 - most), "MOST_LEFT, LONGEST = %d," % most)
            yield from ends_of(top, ([], wanted, 2, wanted))
        for number, wanted in ((5, 0), (6, 1)):
            with open(os.path.join(top, "edits.tsv")) as file:
                write(top, "edits.tsv", re.sub(r"^tree\t\d+", "tree\t%d" % number, file.read(), flags=re.M))
            yield from ends_of(top, ([], wanted, 2, wanted))
        yield from ends_of(top, (["--write"], 0, 12, 0), ([], 0, 0, 0))


def the_limit_is_kept_with_twice_the_edits():
    # as many judges at once as there are processors; eight crates take 16 seconds, and sixteen 32
    limit, slow = 30, {"JUDGE_SECONDS": str(2 * prover.lanes())}
    for crates, has_left in ((8, False), (16, True)):
        with judged(crates) as top:
            yield from ends_of(top, (["--write"], 0, 2 * crates, 0))
            began = time.monotonic()
            status, said = ran(top, "bash", ".ci/run", NEWSD_GATE_SECONDS=str(limit), **slow)
            took, left = time.monotonic() - began, re.search(r"not tried in this time: (\d+) of the sample", said)
            # the limit, and the time that it takes to end
            if status or took > limit + 2 or not left or bool(int(left[1])) != has_left or not said.endswith("\n7 passed, 0 failed\n"):
                yield "after %.0f s: status %d: %s" % (took, status, said)
    with judged(16) as top:
        # what must be done isn't left
        status, said = ran(top, "bash", ".ci/run", NEWSD_GATE_SECONDS=str(limit), **slow)
        if not status or "FAILED: the time was over in: edits" not in said or said.endswith("passed, 0 failed\n"):
            yield "status %d: %s" % (status, said)


def below(top, *edits):
    """What bin/edits-below says of these edits of `low`, by their old and new texts."""
    folder = os.path.join(top, "crates", "high", "edits_below")
    shutil.rmtree(folder, ignore_errors=True)
    for old, new in edits:
        text = "file: crates/low/specs/Numbers.antt\nold: %s\nnew: %s\nrefused: law\n" % (old, new)
        write(top, "crates/high/edits_below/%s.is_another.edit" % old.split()[0], text)
    return ran(top, os.path.join(top, "bin", "edits-below"), XDG_CACHE_HOME=os.path.join(top, "cache"))


def wrong_definitions_are_refused_by_the_crate_above():
    one, zero, two = ("one = 1", "one = 2"), ("zero = 0", "zero = 9"), ("two = 2", "two = 3")
    with repository({}) as top:
        write(top, "crates.txt", "low:\nhigh: low\n")
        write(top, "crates/low/specs/Numbers.antt", "zero = 0\none = 1\ntwo = 2\n")
        write(top, "crates/high/specs/Lib.antt", "")
        write(top, "bin/rt", RT)
        for edits, wanted, words in (([one], 0, "1 passed, 0 failed"), ([one, zero], 1, "high is proved"),
                                     ([two], 2, "low isn't proved with it"), ([("four = 4", "four = 5")], 2, "stands 0 times")):
            status, said = below(top, *edits)
            if status != wanted or words not in said:
                yield "%s: status %d: %s" % (edits, status, said)
        # what was refused is kept, as long as nothing that it rests on changes
        write(top, "bin/rt", "raise SystemExit(3)\n")
        if below(top, one)[0]:
            yield "what was refused isn't kept"
        changed(top, "crates/low/specs/Numbers.antt", "two = 2", "two = 1 + 1")
        if not below(top, one)[0]:
            yield "what was refused over another definition is kept"


TESTS = [
    wrong_definitions_are_refused_by_the_crate_above,
    functions_are_found_in_a_text,
    wrong_bodies_are_refused_once,
    what_was_proved_is_kept_while_it_fits,
    bad_edits_fail_by_their_names,
    a_named_goal_is_searched_for_once_and_no_answers_are_offered,
    a_named_goal_that_is_shown_refuses_no_edit,
    a_control_is_searched_for_as_the_copies_are,
    a_copy_is_refused_by_what_is_open_in_its_own_lines,
    one_that_is_refused_for_being_a_copy_is_tried_in_place,
    a_forged_verdict_is_found_by_the_sample_and_by_all,
    a_line_whose_sum_does_not_fit_is_as_if_it_were_not_there,
    what_is_left_is_tried_by_each_gate_and_not_for_ever,
    the_limit_is_kept_with_twice_the_edits,
]


if __name__ == "__main__":
    sys.exit(main(TESTS))
