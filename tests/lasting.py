#!/usr/bin/env python3
"""System tests of volumes that live for years. lasting.py NEWSD [NAME..] [--articles N]

N articles are in the volume that `a_large_volume_is_renewed` renews, and in that of `a_night_of_a_large_volume`, 30,000 if it isn't
given."""
import copy
import hashlib
import json
import os
import random
import shutil
import signal
import subprocess
import sys
import tempfile
import threading
import time

from ages import DATING, DAY, FIRST, answers
from newsd import SECONDS, SECONDS_OF_WORK, Caller, article, end_with_parent, message_id
from playing import Skipped, main
from refusals import compile_library

GROUPS = ("x.a", "x.b", "x.c")
# the groups of an article, by its number
NAMES = ("x.a", "x.b", "x.a,x.b", "x.c", "x.c,x.a,x.none")
ARTICLES = 30_000
# of all articles, the part that is left in a group
LEFT = 6
KILLS = 8
# a day of a site, how many of them an article stays, and the octets of an article
POSTS, DAYS_KEPT, SIZE = 4, 30, 60_000
# a volume that has room for the articles of these days, and for the pack of some years
SITE = {"blocks": 3072, "inodes": 192}
# the files of two groups, and the pack
OTHER_FILES = 7
# the night of a large volume, and the days on which its articles were filed
NIGHT, DAYS_FILED = 40, range(0, 40, 5)


# ---- a large volume

def a_large_volume_is_renewed(volume):
    """What a client can ask for is the same, octet by octet: of groups, numbers and ids, also of those that are gone. What is posted then
    has the numbers and ids that it would have had. A fifth of the blocks and inodes is in use at most."""
    count = articles_wanted()
    at = large(volume, count)
    gone = make_large(at, count)
    before, seen = usage(at), digest(at, count)
    kept = spool_of(at)
    other = copy_of(at, "other")
    start = time.monotonic()
    done = renew(at, "--in-place")
    seconds = time.monotonic() - start
    after = usage(at)
    assert (done["husks"], done["kept"]) == (gone, count - gone), (done, gone)
    assert (spool_of(at), digest(at, count)) == (kept, seen)
    print("  %d articles, %d of them gone: renewed in %.1f s; blocks %d before and %d after, inodes %d and %d"
          % (count, gone, seconds, *before[:1], *after[:1], before[1], after[1]), flush=True)
    # a sixth of the articles is left, and of the others what a pack has
    assert all(left <= had / 5 for had, left in zip(before, after)), (before, after)
    as_posted(at, other, count)


def a_large_renewal_is_killed(volume):
    """Killed at any moment, a renewal leaves what was there, or has done its work."""
    count = articles_wanted() // 3
    at = large(volume, count)
    make_large(at, count)
    kept, seen = spool_of(at), digest(at, count)
    start = time.monotonic()
    renew(copy_of(at, "other"), "--in-place")
    killed(at, time.monotonic() - start, kept)
    assert digest(at, count) == seen


def large(volume, count):
    """A volume with room for so many articles."""
    return volume.another("large", blocks=98_304 * count // ARTICLES + 8192, inodes=count + count // 10 + 64 - (count + count // 10) % 64)


def articles_wanted():
    return ARTICLES_GIVEN or ARTICLES


def make_large(at, count):
    """Files the articles, and takes all but the last ones out of their groups. Says how many are gone."""
    for name in GROUPS:
        at.make_group(name)
    for first in range(0, count, 5000):
        numbers = range(first, min(first + 5000, count))
        done = at.run("import", at.path, given=b"".join(map(entry, numbers)))
        assert done.stdout.startswith(b"filed %d\n" % len(numbers)), done
    last = count - count // LEFT
    for name in GROUPS:
        at.expire(sum(name in groups_of(number) for number in range(last)), name)
    return last


def groups_of(number):
    return NAMES[number % len(NAMES)].split(",")


def entry(number):
    """An article in the form of a batch: some are shorter than a block, some have five."""
    text = article(number, "subject %d" % number, "%070d\n" % number * (number % 240)).replace(b"\r\n", b"\n")[:-len(b".\n")]
    text = text.replace(b"Newsgroups: x.a", b"Newsgroups: " + NAMES[number % len(NAMES)].encode())
    return b"#! rnews %d\n%s" % (len(text), text)


def asked_of(count):
    """All that a client asks for of groups, numbers and ids."""
    yield from ("LIST ACTIVE", "LIST ACTIVE.TIMES", "LIST NEWSGROUPS", "NEWNEWS * 20000101 000000 GMT", "NEWNEWS x.b 20000101 000000 GMT")
    for name in GROUPS:
        yield from ("GROUP " + name, "LISTGROUP " + name, "OVER 1-", "NEXT", "LAST", "ARTICLE")
        yield from ("STAT %d" % number for number in range(count // 2))
        yield from ("%s %d" % (word, number) for number in range(0, count // 2, 7) for word in ("ARTICLE", "HEAD", "BODY"))
    yield from ("%s %s" % (word, message_id(number)) for number in range(count) for word in ("STAT", "IHAVE"))
    yield from ("%s %s" % (word, message_id(number)) for number in range(0, count, 7) for word in ("ARTICLE", "OVER"))
    yield "QUIT"


def digest(at, count):
    """Of all that the server answers. Each id was here once, so that none of them is asked for again."""
    sum_of, octets = hashlib.sha256(), 0
    with at.serve() as server, Caller(server.port, seconds=SECONDS_OF_WORK) as caller:
        lines = "".join(line + "\r\n" for line in asked_of(count)).encode()
        sender = threading.Thread(target=caller.send, args=(lines,), daemon=True)
        sender.start()
        while piece := caller.file.read1(1 << 16):
            assert b"\r\n335 " not in piece
            sum_of.update(piece)
            octets += len(piece)
        sender.join()
        assert server.order("stop") == "stopped"
        assert server.end() == (0, "")
    return octets, sum_of.hexdigest()


def spool_of(at):
    """The digests of what is dumped and exported."""
    return [hashlib.sha256(words_of(at, command)).hexdigest() for command in ("dump", "export")]


def words_of(at, *words):
    done = at.run(words[0], at.path, *words[1:])
    assert (done.returncode, done.stderr) == (0, b""), (words, done)
    return done.stdout


def usage(at):
    found = json.loads(words_of(at, "status", "--json"))
    return found["blocks"]["used"], found["inodes"]["used"]


def renew(at, *words):
    """The counts of a renewal."""
    done = json.loads(words_of(at, "renew", *words, "--json"))
    return {name: done[name] for name in ("groups", "kept", "husks", "expiries")}


def killed(at, seconds, kept):
    """Renewals in place are killed at random moments."""
    chance = random.Random(random_seed())
    replaced = 0
    for _ in range(KILLS):
        node = os.stat(at.path).st_ino
        process = subprocess.Popen([at.program, "renew", at.path, "--in-place"], stdout=subprocess.DEVNULL, stderr=subprocess.DEVNULL,
                                   preexec_fn=end_with_parent)
        time.sleep(chance.uniform(0, 1.2 * seconds))
        process.send_signal(signal.SIGKILL)
        process.wait(SECONDS)
        replaced += os.stat(at.path).st_ino != node
        assert spool_of(at) == kept
    renew(at, "--in-place")
    assert spool_of(at) == kept
    print("  of %d killed %d had replaced the file" % (KILLS, replaced), flush=True)


def random_seed():
    seed = random.randrange(1 << 32)
    print("  seed", seed, flush=True)
    return seed


def copy_of(at, name):
    """A copy of the volume beside it."""
    other = copy.copy(at)
    other.path = os.path.join(os.path.dirname(at.path), name)
    shutil.copyfile(at.path, other.path)
    return other


def as_posted(renewed, other, count):
    """What is posted to both has the same numbers and ids, some of which the server makes."""
    after = []
    for at in (renewed, other):
        with at.serve() as server, server.call() as caller:
            for number in range(count, count + 30):
                text = entry(number).split(b"\n", 1)[1].replace(b"\n", b"\r\n")
                if number % 3 == 0:
                    text = b"".join(line for line in text.splitlines(keepends=True) if not line.startswith(b"Message-ID:"))
                assert caller.post(text + b".\r\n") == "240 Article received", number
            assert server.order("stop") == "stopped"
        after.append((words_of(at, "dump"), words_of(at, "export"), ranges(at)))
    assert after[0] == after[1]


def ranges(at):
    """The lowest and the highest number of each group."""
    return [(group["name"], group["low"], group["high"]) for group in json.loads(words_of(at, "status", "--json"))["groups"]]


# ---- a night

def a_night_of_a_large_volume(volume):
    """A quarter of the articles is older than 30 days: they are taken out by the server while a caller asks for the date, and by a command;
    then the volume is renewed in place. Says how long each takes."""
    with tempfile.TemporaryDirectory(prefix="newsd-dating-") as folder:
        library = compile_library(folder, DATING)
        if library is None:
            raise Skipped("there is no compiler for C")
        count = articles_wanted()
        at = volume.another("night", blocks=max(1024, count * 5 // 4 + 2048), inodes=count + count // 10 + 64 - (count + count // 10) % 64)
        night = Night(at, library, count)
        other = copy_of(at, "other")
        waited, by_server = night.expire_on_server(at)
        by_command = night.run(other, "expire", other.path, "--older-than", str(DAYS_KEPT))
        assert at.dump() == other.dump()
        before = usage(at)
        renewed = night.run(at, "renew", at.path, "--in-place")
        print("  %d articles: taken out by the server in %.2f s, during which a caller waited for %.2f s at most; by a command in %.1f s;"
              " renewed in %.1f s; blocks %d before and %d after"
              % (count, by_server, waited, by_command, renewed, before[0], usage(at)[0]),
              flush=True)


class Night:
    """The night of a volume to which articles came on some days."""

    def __init__(self, at, library, count):
        self.library = library
        for name in GROUPS:
            at.make_group(name)
        for place, day in enumerate(DAYS_FILED):
            numbers = range(count * place // len(DAYS_FILED), count * (place + 1) // len(DAYS_FILED))
            done = subprocess.run([*self.dated(day), at.program, "import", at.path], input=b"".join(map(small_entry, numbers)),
                                  capture_output=True, timeout=SECONDS_OF_WORK)
            assert done.stdout.startswith(b"filed %d\n" % len(numbers)), done

    def dated(self, day):
        return ["env", "LD_PRELOAD=" + self.library, "NOW=%d" % (FIRST + day * DAY)]

    def run(self, at, *words):
        """How long a command takes."""
        start = time.monotonic()
        done = subprocess.run([*self.dated(NIGHT), at.program, *words], capture_output=True, timeout=SECONDS_OF_WORK)
        assert (done.returncode, done.stderr) == (0, b""), done
        return time.monotonic() - start

    def expire_on_server(self, at):
        """How long a caller waits at most meanwhile, and how long it takes."""
        with at.serve(by=self.dated(NIGHT)) as server, server.call() as caller:
            waits, is_done = [], threading.Event()

            def ask():
                while not is_done.is_set():
                    start = time.monotonic()
                    assert caller.ask("DATE").startswith("111 ")
                    waits.append(time.monotonic() - start)

            asking = threading.Thread(target=ask, daemon=True)
            asking.start()
            start = time.monotonic()
            said = answers(server, "expire-older %d" % DAYS_KEPT)
            seconds = time.monotonic() - start
            is_done.set()
            asking.join()
            assert len(said) == len(GROUPS) + 1 and said[-1].startswith("articles "), said
            assert server.order("stop") == "stopped"
        return max(waits), seconds


def small_entry(number):
    """An article of some 800 octets in the form of a batch."""
    text = article(number, "subject %d" % number, "%070d\n" % number * 8).replace(b"\r\n", b"\n")[:-len(b".\n")]
    text = text.replace(b"Newsgroups: x.a", b"Newsgroups: " + NAMES[number % len(NAMES)].encode())
    return b"#! rnews %d\n%s" % (len(text), text)


# ---- a site

def forty_days_of_a_site(volume):
    site(volume, 40)


def a_year_of_a_site(volume):
    site(volume, 365)


def site(volume, days):
    """Posts, an expiry by age, by the server or by a command, and a renewal in place each day. No number and no id comes twice, what is
    young stays as it is, and the volume never fills, though it has room for the articles of some 40 days."""
    with tempfile.TemporaryDirectory(prefix="newsd-dating-") as folder:
        library = compile_library(folder, DATING)
        if library is None:
            raise Skipped("there is no compiler for C")
        at = volume.another("site", **SITE)
        for name in GROUPS[:2]:
            at.make_group(name)
        lived = Lived(at, library)
        for day in range(days):
            lived.live(day)
        lived.print()


class Lived:
    """A site's days, and what its readers saw."""

    def __init__(self, at, library):
        self.at = at
        self.library = library
        self.ids = []
        self.highs = dict.fromkeys(GROUPS[:2], 0)
        self.most_blocks = 0

    def dated(self, day):
        return ["env", "LD_PRELOAD=" + self.library, "NOW=%d" % (FIRST + day * DAY)]

    def live(self, day):
        with self.at.serve(by=self.dated(day)) as server:
            self.post(server, day)
            if day % 2:
                assert answers(server, "expire-older %d" % DAYS_KEPT)[-1].startswith("articles ")
            assert server.order("stop") == "stopped"
            assert server.end() == (0, "")
        blocks, inodes = usage(self.at)
        self.most_blocks = max(self.most_blocks, blocks)
        # of what is gone no inode is kept: what is there has one, and so has what came after the last renewal
        assert inodes <= OTHER_FILES + POSTS * (DAYS_KEPT + 2), (day, inodes)
        before = self.spool()
        for words in (["expire", self.at.path, "--older-than", str(DAYS_KEPT)], ["renew", self.at.path, "--in-place"]):
            done = subprocess.run([*self.dated(day), self.at.program, *words], capture_output=True, timeout=SECONDS_OF_WORK)
            assert (done.returncode, done.stderr) == (0, b""), (day, done)
        after = self.spool()
        # what was there is there, and the expiries behind it
        assert after[:len(before)] == before and all(" expire " in line for line in after[len(before):]), day
        kept = min(day + 1, DAYS_KEPT + 1) * POSTS
        assert self.here() == self.ids[-kept:], day

    def post(self, server, day):
        """Posts articles, of which the server makes every second one's id, and finds their numbers and ids."""
        with server.call() as caller:
            for number in range(POSTS):
                text = article("%d.%d" % (day, number), "day %d" % day, "x" * 70 + "\r\n" + ("%070d\r\n" % day) * (SIZE // 72))
                text = text.replace(b"Newsgroups: x.a", b"Newsgroups: " + (b"x.a", b"x.b", b"x.a,x.b")[number % 3])
                if number % 2:
                    text = b"".join(line for line in text.splitlines(keepends=True) if not line.startswith(b"Message-ID:"))
                assert caller.post(text) == "240 Article received", (day, number)
            new = set()
            for name, high in self.highs.items():
                said = caller.ask("GROUP " + name).split()
                assert said[0] == "211" and int(said[3]) > high, (day, said, high)
                found = overviews(caller, high + 1)
                assert [number for number, _ in found] == list(range(high + 1, int(said[3]) + 1)), (day, found, said)
                self.highs[name] = int(said[3])
                new.update(own_id for _, own_id in found)
            assert len(new) == POSTS and not new & set(self.ids), (day, new)
            self.ids += as_posted_on(day, new)
            if day % 30 == 29:
                self.ask_for_all(caller)

    def ask_for_all(self, caller):
        """Each id that was ever here is known still."""
        for own_id in self.ids:
            assert caller.ask("IHAVE " + own_id).startswith("435"), own_id

    def spool(self):
        return self.at.dump()[1:]

    def here(self):
        """The ids of the articles that an export writes."""
        text = words_of(self.at, "export")
        return [line.split(b": ")[1].decode() for line in text.splitlines() if line.startswith(b"Message-ID: ")]

    def print(self):
        used, inodes = usage(self.at)
        whole = len(self.ids) * (SIZE // 4096 + 2)
        print("  %d articles of %d octets in %d blocks: at most %d were used, at the end %d, and %d inodes; all texts take %d"
              % (len(self.ids), SIZE, SITE["blocks"], self.most_blocks, used, inodes, whole), flush=True)
        assert len(set(self.ids)) == len(self.ids)


def as_posted_on(day, ids):
    """The ids of a day in the order of their articles. The server makes one of the serial, and that of each second article."""
    given = ["<%d.%d@a.example>" % (day, number) for number in range(0, POSTS, 2)]
    made = sorted(ids.difference(given), key=lambda own_id: int(own_id[1:].split("@")[0]))
    return [own_id for pair in zip(given, made) for own_id in pair]


def overviews(caller, first):
    """The numbers and the ids from this number on."""
    assert caller.ask("OVER %d-" % first).startswith("224")
    found = []
    while (line := caller.line()) != ".":
        found.append((int(line.split("\t")[0]), line.split("\t")[4]))
    return found


def given_articles():
    """The number behind `--articles`, which the words have no more then."""
    if "--articles" not in sys.argv:
        return None
    at = sys.argv.index("--articles")
    _, number = sys.argv[at:at + 2]
    del sys.argv[at:at + 2]
    return int(number)


ARTICLES_GIVEN = given_articles()

TESTS = [forty_days_of_a_site]

# each takes a minute or more
LONG_ONES = [a_large_volume_is_renewed, a_large_renewal_is_killed, a_night_of_a_large_volume, a_year_of_a_site]


if __name__ == "__main__":
    sys.exit(main(TESTS, LONG_ONES))
