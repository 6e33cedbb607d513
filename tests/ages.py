#!/usr/bin/env python3
"""System tests of expiries by age: `newsd expire --older-than`, and the lines `expire-older` and `list-older` of a server.

ages.py NEWSD [NAME..]"""
import json
import os
import random
import subprocess
import sys
import tempfile
import threading
import time

from newsd import FAULT, SECONDS, SECONDS_OF_WORK, article, end_with_parent, message_id
from playing import Skipped, main, side_by_side
from refusals import compile_library

DATING = os.path.join(os.path.dirname(os.path.abspath(__file__)), "dating.c")
DAY = 86400
# the day on which the first articles are filed
FIRST = 1700000000
# how often an expiry is killed
KILLS = 6
# groups whose articles are taken out while callers read and post, the articles of each, and the callers
MANY, EACH, READERS = 30, 4, 6
# lines that ask for nothing
BAD = ("expire-older", "expire-older ", "expire-older 0", "expire-older 36501", "expire-older -1", "expire-older 30 ", "expire-older  30",
       "expire-older 30 x.*,", "expire-older 30 !x.a", "expire-older 30 x.* x.b", "expire-older x.* 30", "expire-older 30 --dry-run x.a",
       "list-older", "list-older 0 x.a", "Expire-older 30", "expire-older30", " expire-older 30", "expire-older 30\t")
# articles by the days on which they are filed, in the order in which they are; the groups of each
FILED = ((0, "x.a"), (0, "x.a,x.b"), (4, "x.b"), (9, "x.a"), (20, "x.a,x.b"), (3, "x.a"), (21, "x.a"))


class Dated:
    """Runs commands at moments of its choice."""

    def __init__(self, volume, folder):
        self.volume = volume
        self.library = compile_library(folder, DATING)
        if self.library is None:
            raise Skipped("there is no compiler for C")

    def run(self, moment, *words, given=b""):
        settings = {**os.environ, "LD_PRELOAD": self.library, "NOW": str(moment)}
        return subprocess.run([self.volume.program, *words], input=given, capture_output=True, timeout=SECONDS_OF_WORK, env=settings)

    def kill_after(self, seconds, moment, *words):
        """The whole lines of a command that is killed after these seconds."""
        settings = {**os.environ, "LD_PRELOAD": self.library, "NOW": str(moment)}
        words = [self.volume.program, *words]
        with subprocess.Popen(words, stdout=subprocess.PIPE, stderr=subprocess.DEVNULL, env=settings, preexec_fn=end_with_parent) as process:
            time.sleep(seconds)
            process.kill()
            return process.stdout.read().decode().split("\n")[:-1]

    def says(self, moment, *words, given=b""):
        """The lines of a command that is done."""
        done = self.run(moment, *words, given=given)
        assert (done.returncode, done.stderr) == (0, b""), (words, done)
        return done.stdout.decode().splitlines()

    def file(self, day, groups_by_number):
        """Imports articles on this day, each into its groups."""
        batch = b""
        for number, groups in groups_by_number.items():
            text = article(number).replace(b"Newsgroups: x.a", b"Newsgroups: " + groups.encode())[:-len(b".\r\n")]
            batch += b"#! rnews %d\n" % len(text) + text
        said = self.says(FIRST + day * DAY, "import", self.volume.path, given=batch)
        assert said[0] == "filed %d" % len(groups_by_number), said

    def serve(self, moment):
        """A server whose time of day is this moment, for good."""
        return self.volume.serve(by=["env", "LD_PRELOAD=" + self.library, "NOW=%d" % moment])

    def expire(self, moment, *words):
        """What an expiry prints. A dry run prints the same before it, and makes no change."""
        before = self.volume.dump()
        dry = self.says(moment, "expire", self.volume.path, *words, "--dry-run")
        assert self.volume.dump() == before
        said = self.says(moment, "expire", self.volume.path, *words)
        assert said == dry, (said, dry)
        return said


def with_dates(test):
    """A test of a volume whose commands run at moments of its choice."""
    def run(volume):
        with tempfile.TemporaryDirectory(prefix="newsd-dating-") as folder:
            small = volume.another("small", blocks=1024, inodes=64)
            test(small, Dated(small, folder))
    run.__name__ = test.__name__
    return run


def fill(volume, dated):
    for name in ("x.a", "x.b", "x.none"):
        volume.make_group(name)
    for number, (day, groups) in enumerate(FILED, 1):
        dated.file(day, {number: groups})


def answers(server, line):
    """What the operator is answered to a line about ages."""
    first = server.order(line)
    return [first, *more(server, first)]


def more(server, answer):
    """The answers behind this one, up to the last one."""
    while not answer.startswith(("articles ", "E")):
        answer = server.process.stdout.readline().decode().rstrip("\n")
        assert answer, "the answer ends early"
        yield answer


def stopped(server):
    assert server.order("stop") == "stopped"
    assert server.end() == (0, "")


def expired(volume):
    """The expiries that the volume has."""
    return [line.split(" ", 1)[1] for line in volume.dump() if " expire " in line]


def ranges(volume):
    """The lowest and the highest number of each group."""
    return [(group["low"], group["high"]) for group in json.loads(volume.run("status", volume.path, "--json").stdout)["groups"]]


@with_dates
def no_young_article_is_taken_out(volume, dated):
    """In x.a the sixth article is old again, behind one that is young. An article that is as old to the second isn't older."""
    fill(volume, dated)
    now = FIRST + 14 * DAY
    assert dated.expire(now, "--older-than", "14") == ["articles 0"]
    assert dated.expire(now + 1, "--older-than", "14") == ["expire x.a 2", "expire x.b 1", "articles 3"]
    assert dated.expire(now + 1, "--older-than", "14") == ["articles 0"]
    assert dated.expire(FIRST + 26 * DAY, "--older-than", "10") == ["expire x.a 3", "expire x.b 2", "articles 2"]
    assert expired(volume) == ["expire x.a 2", "expire x.b 1", "expire x.a 3", "expire x.b 2"]
    assert ranges(volume) == [(4, 6), (3, 3), (1, 0)], ranges(volume)
    with volume.serve() as server, server.call() as caller:
        for number, (day, _) in enumerate(FILED, 1):
            assert caller.ask("STAT " + message_id(number)).startswith("430" if number <= 4 else "223"), number
    # all of them are old in the end, and in an empty group there is nothing to take out
    assert dated.expire(FIRST + 500 * DAY, "--older-than", "10") == ["expire x.a 6", "expire x.b 3", "articles 4"]
    assert dated.expire(FIRST + 900 * DAY, "--older-than", "1") == ["articles 0"]


@with_dates
def a_wildmat_names_the_groups(volume, dated):
    fill(volume, dated)
    now = FIRST + 100 * DAY
    for wildmat in ("x.c", "x.*,!x.a,!x.b"):
        assert dated.expire(now, wildmat, "--older-than", "30") == ["articles 0"], wildmat
    assert dated.expire(now, "x.*,!x.a", "--older-than", "30") == ["expire x.b 3", "articles 3"]
    assert dated.expire(now, "--older-than", "30", "x.a") == ["expire x.a 6", "articles 6"]


@with_dates
def days_may_reach_beyond_1970(volume, dated):
    """Nothing is older then. A clock that gives no time takes nothing out, either."""
    fill(volume, dated)
    assert dated.expire(FIRST + 30 * DAY, "--older-than", "36500") == ["articles 0"]
    for moment in (-1, 253402300800):
        done = dated.run(moment, "expire", volume.path, "--older-than", "1")
        said = "newsd: E14 Bad: --older-than '1' needs a clock that gives a time from 1970 to 9999\n"
        assert (done.returncode, done.stdout, done.stderr.decode()) == (1, b"", said), done
    assert expired(volume) == []


@with_dates
def what_is_printed_is_taken_out(volume, dated):
    """Also where the volume has room for one expiry and not for the next."""
    volume.make_group("x.a")
    volume.make_group("x.b")
    dated.file(0, {number: "x.a" if number % 2 else "x.b" for number in range(1, 58)})
    words = ["expire", volume.path, "--older-than", "1"]
    assert dated.says(FIRST + 9 * DAY, *words, "--dry-run") == ["expire x.a 29", "expire x.b 28", "articles 57"]
    done = dated.run(FIRST + 9 * DAY, *words)
    assert (done.returncode, done.stdout, done.stderr.decode()) == (1, b"expire x.a 29\n", "newsd: E6 Full\n"), done
    assert expired(volume) == ["expire x.a 29"]


@with_dates
def a_killed_expiry_is_run_again(volume, dated):
    """What it printed is taken out then. The next run goes on where the last one was killed."""
    dated.volume = volume = volume.another("larger", blocks=1024, inodes=192)
    names = ["x.g%02d" % number for number in range(30)]
    for name in names:
        volume.make_group(name)
    dated.file(0, {number: ",".join(names[10 * number:10 * number + 10]) for number in range(3)})
    words = (FIRST + 9 * DAY, "expire", volume.path, "--older-than", "1")
    planned = dated.says(*words, "--dry-run")
    assert planned == ["expire %s 1" % name for name in names] + ["articles 30"]
    start = time.monotonic()
    dated.says(*words, "--dry-run")
    seconds = time.monotonic() - start
    for _ in range(KILLS):
        before = expired(volume)
        said = dated.kill_after(random.uniform(0, 2 * seconds), *words)
        after = expired(volume)
        assert after == planned[:len(after)] and before == after[:len(before)], (before, after)
        assert [line for line in said if line.startswith("expire")] == after[len(before):][:len(said)], (said, before, after)
    left = planned[len(expired(volume)):-1]
    assert dated.says(*words) == [*left, "articles %d" % len(left)]
    assert expired(volume) == planned[:-1]


@with_dates
def a_night_of_a_server(volume, dated):
    """Its volume is refused while it runs. Then what is old goes, and a renewal gives its blocks back."""
    fill(volume, dated)
    with volume.serve() as server:
        done = dated.run(FIRST + 30 * DAY, "expire", volume.path, "--older-than", "15")
        assert (done.returncode, done.stdout) == (1, b""), done
        assert done.stderr.decode() == "newsd: E1 Fault: the volume is in use by process %d\n" % server.process.pid, done
        assert server.order("stop") == "stopped"
        assert server.end() == (0, "")
    assert dated.expire(FIRST + 30 * DAY, "--older-than", "15") == ["expire x.a 3", "expire x.b 2", "articles 5"]
    said = dated.says(FIRST + 30 * DAY, "renew", volume.path, "--in-place")
    assert said[:4] == ["groups 3", "kept 3", "husks 4", "expiries 2"], said
    assert expired(volume) == ["expire x.a 3", "expire x.b 2"]
    assert dated.expire(FIRST + 30 * DAY, "--older-than", "15") == ["articles 0"]


# ---- the lines of a server

@with_dates
def a_server_takes_out_what_is_old(volume, dated):
    """What a command would, and callers are told at once. What is posted meanwhile is young."""
    fill(volume, dated)
    now = FIRST + 14 * DAY + 1
    listed = ["expire x.a 2", "expire x.b 1", "articles 3"]
    with dated.serve(now) as server, server.call() as caller:
        assert caller.ask("GROUP x.a") == "211 6 1 6 x.a"
        assert answers(server, "list-older 14") == listed
        assert caller.ask("GROUP x.a") == "211 6 1 6 x.a"
        assert answers(server, "expire-older 14") == ["11 expire x.a 2", "12 expire x.b 1", "articles 3"]
        assert caller.ask("GROUP x.a") == "211 4 3 6 x.a"
        assert caller.post(article(100)).startswith("240 ")
        for line in ("expire-older 14", "list-older 14", "expire-older 36500"):
            assert answers(server, line) == ["articles 0"], line
        for number, (day, _) in enumerate(FILED, 1):
            assert caller.ask("STAT " + message_id(number)).startswith("430" if number <= 2 else "223"), number
        stopped(server)
    assert expired(volume) == listed[:-1]
    # by now all are old but what is posted
    with dated.serve(FIRST + 500 * DAY) as server, server.call() as caller:
        assert caller.ask("GROUP x.a") == "211 5 3 7 x.a"
        assert caller.post(article(101)).startswith("240 ")
        assert answers(server, "expire-older 10 x.a") == ["15 expire x.a 7", "articles 5"]
        assert caller.ask("GROUP x.a") == "211 1 8 8 x.a"
        stopped(server)


@with_dates
def a_server_is_told_the_groups_by_a_wildmat(volume, dated):
    fill(volume, dated)
    with dated.serve(FIRST + 100 * DAY) as server:
        for wildmat in ("x.c", "x.*,!x.a,!x.b"):
            assert answers(server, "expire-older 30 " + wildmat) == ["articles 0"], wildmat
        assert answers(server, "expire-older 30 x.*,!x.a") == ["11 expire x.b 3", "articles 3"]
        assert answers(server, "list-older 30 *") == ["expire x.a 6", "articles 6"]
        assert answers(server, "expire-older 30 x.a") == ["12 expire x.a 6", "articles 6"]
        stopped(server)


@with_dates
def other_words_ask_for_nothing(volume, dated):
    """The line with a number stays as it was, also for a group that has the name of an option."""
    fill(volume, dated)
    with dated.serve(FIRST + 100 * DAY) as server:
        for line in BAD:
            assert server.order(line) == "E14 Bad", line
        assert server.order("expire --older-than 30") == "E12 NotFound"
        assert server.order("expire x.a 2") == "11"
        stopped(server)
    assert expired(volume) == ["expire x.a 2"]
    with dated.serve(-1) as server:
        assert server.order("expire-older 30") == server.order("list-older 30") == "E14 Bad"
        stopped(server)
    assert expired(volume) == ["expire x.a 2"]


def many(volume, dated, inodes=576):
    """A volume with many groups, and the expiries that take all of their articles out."""
    dated.volume = at = volume.another("many", blocks=4096, inodes=inodes)
    names = ["x.g%02d" % number for number in range(MANY)]
    for name in [*names, "x.a"]:
        at.make_group(name)
    dated.file(0, {number: names[number % MANY] for number in range(MANY * EACH)})
    return at, names, ["expire %s %d" % (name, EACH) for name in names]


@with_dates
def callers_read_and_post_meanwhile(volume, dated):
    """Each is answered what holds before or after a group's expiry, and after its answer nobody sees what was taken out."""
    at, names, planned = many(volume, dated)
    with dated.serve(FIRST + 9 * DAY) as server:
        taken, done, counts, posted = [], threading.Event(), [0] * READERS, []
        # all callers are greeted when the line is sent
        greeted = threading.Barrier(READERS + 2, timeout=SECONDS)

        def read(which):
            with server.call() as caller:
                greeted.wait()
                while not (done.is_set() and counts[which]):
                    before = len(taken)
                    for place, name in enumerate(names):
                        reply = caller.ask("GROUP " + name)
                        whole, empty = "211 %d 1 %d %s" % (EACH, EACH, name), "211 0 %d %d %s" % (EACH + 1, EACH, name)
                        assert reply == empty or reply == whole and place >= before, (reply, place, before)
                        counts[which] += 1

        def post():
            with server.call() as caller:
                greeted.wait()
                while not (done.is_set() and posted):
                    assert caller.post(article(1000 + len(posted))).startswith("240 ")
                    posted.append(caller.ask("STAT " + message_id(1000 + len(posted))).startswith("223 "))

        def order():
            greeted.wait()
            try:
                first = server.order("expire-older 3")
                for answer in (first, *more(server, first)):
                    taken.append(answer)
            finally:
                done.set()

        side = [lambda which=which: read(which) for which in range(READERS)]
        side_by_side(*side, post, order)
        assert taken[-1] == "articles %d" % (MANY * EACH) and [it.split(" ", 1)[1] for it in taken[:-1]] == planned, taken
        serials = [int(it.split()[0]) for it in taken[:-1]]
        assert serials == sorted(set(serials))
        assert all(posted), posted
        with server.call() as caller:
            assert caller.ask("GROUP x.a") == "211 %d 1 %d x.a" % (len(posted), len(posted))
        stopped(server)
    lines = at.dump()
    assert [line for line in lines if " expire " in line] == taken[:-1]
    print("  %d commands and %d posts were answered meanwhile" % (sum(counts), len(posted)), flush=True)


@with_dates
def a_server_is_killed_between_two_groups(volume, dated):
    """What it answered is taken out then. The next line goes on where it was killed."""
    at, _, planned = many(volume, dated)
    for _ in range(KILLS):
        before = expired(at)
        with dated.serve(FIRST + 9 * DAY) as server:
            left = len(planned) - len(before)
            said = [server.order("expire-older 3")]
            for _ in range(random.randrange(max(1, left // 3))):
                said.append(server.process.stdout.readline().decode().rstrip("\n"))
            server.process.kill()
            said += server.process.stdout.read().decode().split("\n")[:-1]
        after = expired(at)
        assert after == planned[:len(after)] and before == after[:len(before)], (before, after)
        said = [line.split(" ", 1)[1] for line in said if " expire " in line]
        assert said == after[len(before):][:len(said)], (said, before, after)
    left = planned[len(expired(at)):]
    with dated.serve(FIRST + 9 * DAY) as server:
        assert answers(server, "list-older 3") == [*left, "articles %d" % (EACH * len(left))]
        said = answers(server, "expire-older 3")
        assert [line.split(" ", 1)[1] for line in said[:-1]] == left and said[-1] == "articles %d" % (EACH * len(left)), said
        stopped(server)
    assert expired(at) == planned


@with_dates
def a_full_volume_ends_the_answer(volume, dated):
    """What was answered is taken out."""
    volume.make_group("x.a")
    volume.make_group("x.b")
    dated.file(0, {number: "x.a" if number % 2 else "x.b" for number in range(1, 58)})
    with dated.serve(FIRST + 9 * DAY) as server:
        assert answers(server, "list-older 1") == ["expire x.a 29", "expire x.b 28", "articles 57"]
        assert answers(server, "expire-older 1") == ["60 expire x.a 29", "E6 Full"]
        assert server.order("expire x.b 28") == "E6 Full"
        stopped(server)
    assert expired(volume) == ["expire x.a 29"]


@with_dates
def a_device_that_fails_ends_the_answer(volume, dated):
    fill(volume, dated)
    with dated.serve(FIRST + 100 * DAY) as server:
        server.have_writes_fail()
        assert answers(server, "expire-older 30") == ["E1 Fault"]
        assert answers(server, "expire-older 30") == ["E4 Halted"]
        assert server.end() == FAULT


@with_dates
def an_operator_may_read_late(volume, dated):
    """The server's end waits for nobody who doesn't read, and what nobody has read is done."""
    at, _, planned = many(volume, dated)
    with dated.serve(FIRST + 9 * DAY) as server:
        server.process.stdin.write(b"list-older 3\n" * 50 + b"expire-older 3\nstop\n")
        server.process.stdin.flush()
        assert server.process.wait(SECONDS) == 0
        said = server.process.stdout.read().decode().splitlines()
        assert said[:MANY + 1] == [*planned, "articles %d" % (MANY * EACH)] and len(said) <= 51 * (MANY + 1) + 1
    assert expired(at) == planned


@with_dates
def the_first_rule_decides(volume, dated):
    """Each group goes by the first rule that matches its name. A dry run prints the same before, and makes no change."""
    fill(volume, dated)
    now, path = FIRST + 24 * DAY, os.path.join(os.path.dirname(volume.path), "rules")

    def expire_by(rules):
        with open(path, "w") as file:
            file.write(rules)
        before = volume.dump()
        dry = dated.says(now, "expire-by", volume.path, path, "--dry-run")
        assert volume.dump() == before
        said = dated.says(now, "expire-by", volume.path, path)
        assert said == dry, (said, dry)
        return said

    assert expire_by("# none\n\n \t\nx.c*:1\n") == ["articles 0"]
    assert expire_by("x.a:never\nx.*:19\n") == ["expire x.b 2", "articles 2"]
    assert expire_by("x.*:never\nx.a:1\n*:1") == ["articles 0"]
    assert expire_by("x.*,!x.a:1\n*:19\n") == ["expire x.a 2", "expire x.b 3", "articles 3"]
    # the clock counts: the articles of day 9 are 15 days old
    assert expire_by("x.a:15") == ["articles 0"]
    assert expire_by("x.a:14") == ["expire x.a 3", "articles 1"]


@with_dates
def rules_that_are_none_take_nothing_out(volume, dated):
    """They are refused with the number of the first such line, before anything is changed."""
    fill(volume, dated)
    now, path, before = FIRST + 900 * DAY, os.path.join(os.path.dirname(volume.path), "rules"), volume.dump()
    for bad in ("x.a", "x.a:", "x.a:0", "x.a:36501", "x.a:1.5", "x.a:1 ", " x.a:1", "x.a:Never", "x.[a]:1", ":1", "x.a:1:2", "!x.a:1",
                "*:A:1:10:never", "x.a:1\r"):
        with open(path, "w", newline="") as file:
            file.write("# rules\n*:1\n\n%s\nx.a:no\n" % bad)
        for words in ([], ["--dry-run"]):
            done = dated.run(now, "expire-by", volume.path, path, *words)
            why = "newsd: E14 Bad: RULES '%s' has no WILDMAT:DAYS or WILDMAT:never in line 4\n" % path
            assert (done.returncode, done.stdout, done.stderr.decode()) == (1, b"", why), (bad, done)
    done = dated.run(now, "expire-by", volume.path, path + ".none")
    assert (done.returncode, done.stdout) == (1, b"") and b"RULES '%s.none' can't be read: " % path.encode() in done.stderr, done
    with open(path, "w") as file:
        file.write("*:1\n")
    done = dated.run(253402300800, "expire-by", volume.path, path)
    assert (done.returncode, done.stderr.decode()) == (1, "newsd: E14 Bad: RULES '%s' needs a clock that gives a time from 1970 to 9999\n" % path), done
    assert volume.dump() == before


TESTS = [
    no_young_article_is_taken_out,
    a_wildmat_names_the_groups,
    days_may_reach_beyond_1970,
    what_is_printed_is_taken_out,
    a_killed_expiry_is_run_again,
    the_first_rule_decides,
    rules_that_are_none_take_nothing_out,
    a_night_of_a_server,
    a_server_takes_out_what_is_old,
    a_server_is_told_the_groups_by_a_wildmat,
    other_words_ask_for_nothing,
    callers_read_and_post_meanwhile,
    a_server_is_killed_between_two_groups,
    a_full_volume_ends_the_answer,
    a_device_that_fails_ends_the_answer,
    an_operator_may_read_late,
]


if __name__ == "__main__":
    sys.exit(main(TESTS))
