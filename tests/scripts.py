#!/usr/bin/env python3
"""Random scripts of `newsd sim` with renewals, beside the same scripts without. scripts.py NEWSD [NAME..]

A script makes groups, posts and offers articles, takes them out, reads, has the device fail and crash, and renews the volume. Beside it
the same script is played with `crash new` in place of each `renew`: the sessions end there too, and the volume stays as it is. Both print
the same, but for the words `renewed` and `opened`. Where a volume has room for few articles, both print the same up to the first answer
that only one of them gives because it is full. Each script has a seed of its own, which a failure names."""
import collections
import concurrent.futures
import os
import random
import re
import subprocess
import sys
import time

from newsd import HOST
from playing import main

MOMENT = 1000000000
# groups that each script begins with, others that it may make, and one that it doesn't make
GROUPS, MORE_GROUPS, ABSENT = ("x.a", "x.b", "x.c"), ("y.a", "y.b", "y.c"), "x.none"
SESSIONS = 3
# a volume with room for all articles of a script, and one with room for few. Of every two scripts one has so many inodes that short
# articles share the pack
LARGE, SMALL, PACKED = {"blocks": 1024, "inodes": 256}, {"blocks": 1024, "inodes": 64}, {"blocks": 1024, "inodes": 2048}
SCRIPTS, STEPS = 6, 220
SMALL_SCRIPTS, SMALL_STEPS = 5, 180
MANY, MANY_SMALL = 100, 60
# more than the calls of an opening
FAILING_STEPS, CALLS = 12, 17
# seconds for a script where others keep the processors busy
PATIENCE = 120
# an article that has to wait for the device: two volumes need not have as many dirty blocks
WAITS = re.compile("^E8 ", re.M)
# how a full volume answers POST, IHAVE, and a line of the operator
FULL = ("441 Article not accepted", "436 Try again later", "E6 Full")
# what all scripts together have to reach: replies, and refused events
REPLIES = ("111 205 211 215 220 221 222 223 224 230 231 235 240 335 340 411 412 420 421 422 423 430 435 437 441 500").split()
REFUSALS = "E1 E4 E10 E11 E12".split()
REPLY = re.compile(r"(?:^out \d+ |\\r\\n)(\d{3}) ", re.M)
REFUSED = re.compile(r"^(E\d+) ", re.M)


def nothing_changes_for_a_client(volume):
    """Where no volume is full both print the same, octet by octet."""
    play_large(volume.program, SCRIPTS)


def play_large(program, scripts):
    played = at_once(lambda seed: large(program, seed), range(scripts))
    replies, refusals = (collections.Counter(it for both in played for it in one.findall(both.plain)) for one in (REPLY, REFUSED))
    assert set(REPLIES) <= replies.keys(), sorted(set(REPLIES) - replies.keys())
    assert set(REFUSALS) <= refusals.keys(), sorted(set(REFUSALS) - refusals.keys())
    print("  %d renewals, %d replies, %d of them with an article"
          % (sum(both.renewals for both in played), replies.total(), replies["220"]), flush=True)


def large(program, seed):
    both = Both(program, Author(seed).write(STEPS), PACKED if seed % 2 else LARGE, is_cached=seed % 4 > 1)
    assert both.renewed == both.plain, "seed %d: %s" % (seed, both.first_difference())
    assert not WAITS.search(both.plain), seed
    return both


def a_renewal_makes_room(volume):
    """On small volumes the first difference is that one of the two is full, and nearly always it is the one that isn't renewed."""
    play_small(volume.program, SMALL_SCRIPTS)


def play_small(program, scripts):
    full = collections.Counter(at_once(lambda seed: small(program, seed), range(scripts)))
    assert full["plain"] > scripts // 2, full
    print("  full first: %s" % ", ".join("%s %d" % it for it in sorted(full.items())), flush=True)


def small(program, seed):
    """Which of the two was full first."""
    both = Both(program, SmallAuthor(seed).write(SMALL_STEPS), PACKED if seed % 2 else SMALL)
    first = both.full_first()
    assert first, "seed %d: %s" % (seed, both.first_difference())
    assert not WAITS.search(both.plain + both.renewed), seed
    return first


def a_renewal_that_fails_loses_nothing(volume):
    """Each call of the device fails in turn that a renewal makes of the old volume. Then that is opened again, and what follows is the
    same."""
    before, after = (without_renewals(Author(seed).write(FAILING_STEPS)) for seed in (1, 2))
    begun = play(volume.program, before, LARGE)
    opened, rest = play(volume.program, [*before, "crash new", *after], LARGE).removeprefix(begun).split("\n", 1)

    def fail_at(call):
        printed = play(volume.program, [*before, "fail %d" % call, "renew", *after], LARGE)
        assert printed.startswith(begun) and printed.endswith(rest), call
        return printed[len(begun):-len(rest)].splitlines()

    failed, renewed = ["E1 Fault", opened], [opened.replace("opened", "renewed")]
    came = at_once(fail_at, range(1, CALLS))
    calls = came.index(renewed)
    assert calls and came == [failed] * calls + [renewed] * (len(came) - calls), came
    print("  %d calls failed" % calls, flush=True)


def many_scripts(volume):
    """The same for more scripts."""
    play_large(volume.program, MANY)
    play_small(volume.program, MANY_SMALL)


class Both:
    """What a script with renewals printed, and what it did without."""

    def __init__(self, program, lines, sizes, is_cached=False):
        self.renewals = lines.count("renew")
        self.renewed = play(program, lines, sizes, is_cached).replace("\nrenewed ", "\nopened ")
        self.plain = play(program, without_renewals(lines), sizes, is_cached)

    def first_difference(self):
        """The answers in which they differ first, with what follows them."""
        at = len(os.path.commonprefix([self.renewed, self.plain]))
        # a reply begins behind the one before it, or with its line
        begin = max(self.plain.rfind(end, 0, at) + len(end) for end in ("\\r\\n", "\n"))
        return tuple(re.sub(r"\Aout \d+ ", "", text[begin:begin + 100]) for text in (self.renewed, self.plain))

    def full_first(self):
        """Which of the two was full first; nothing where they differ first in anything else."""
        if self.renewed == self.plain:
            return "none"
        renewed, plain = (text.startswith(FULL) for text in self.first_difference())
        return None if renewed == plain else "renewed" if renewed else "plain"


def play(program, lines, sizes, is_cached=False):
    """What the program prints of a script."""
    words = ["--host", HOST, "--blocks", str(sizes["blocks"]), "--inodes", str(sizes["inodes"]), *["--cache"] * is_cached]
    done = subprocess.run([program, "sim", *words], input=("\n".join(lines) + "\n").encode(), capture_output=True, timeout=PATIENCE)
    assert (done.returncode, done.stderr) == (0, b""), done.stderr
    return done.stdout.decode()


def without_renewals(lines):
    return ["crash new" if line == "renew" else line for line in lines]


def at_once(call, values):
    """What a call answers for each of these values."""
    with concurrent.futures.ThreadPoolExecutor(os.cpu_count()) as threads:
        return list(threads.map(call, values))


class Author:
    """Writes a script of random steps.

    How many calls a batch makes of the device depends on where the volume has its files, and a renewal changes that. So a batch in flight
    has at most three calls here, which never commit it, or is carried to its end."""

    # how often each step comes
    WEIGHTS = {
        "make_group": 3, "expire": 8, "spool": 1, "post": 20, "offer": 16, "read": 40, "read_all": 3, "commit": 16, "begin": 3, "drain": 4,
        "release": 8, "leave": 2, "fail": 2, "crash": 2, "renew": 3,
    }
    # one of these is more than the lines that an article has beside its header
    LINES = (5, 70, 500)

    def __init__(self, seed):
        self.chance = random.Random(seed)
        self.lines = []
        # the sessions that are there, and how many there were since the device was opened
        self.sessions, self.joined = [], 0
        # how many articles were sent that have an id
        self.ids = 0
        self.moment = MOMENT

    def write(self, steps):
        """So many steps, a renewal, and all that a client can ask for then."""
        for name in GROUPS:
            self.make_group(name)
        self.drain()
        for name in self.chance.choices(list(self.WEIGHTS), list(self.WEIGHTS.values()), k=steps):
            self.moment += self.chance.randrange(5)
            while len(self.sessions) < SESSIONS:
                self.join()
            getattr(self, name)()
        self.renew()
        self.join()
        self.read_all()
        self.drain()
        self.spool()
        return self.lines

    # ---- the operator

    def make_group(self, name=None):
        name = name or self.chance.choice([*GROUPS, *MORE_GROUPS])
        status = self.chance.choice("yyyyn")
        self.lines.append("group %s %s %d %s" % (name, status, self.moment, "test " * self.chance.randrange(4)))

    def expire(self):
        # of two articles one or so is in the group
        self.lines.append("expire %s %d" % (self.group(), self.chance.randrange(self.ids // 2 + 2)))

    def spool(self):
        self.lines.append("spool")

    # ---- the service

    def join(self):
        self.lines.append("join")
        self.joined += 1
        self.sessions.append(self.joined)
        self.ask(self.joined, "GROUP " + self.group())

    def leave(self):
        session = self.session()
        self.sessions.remove(session)
        if self.chance.random() < 0.5:
            self.lines.append("leave %d" % session)
        else:
            self.ask(session, "QUIT")
            self.ask(session, "DATE")

    def release(self):
        session = self.session()
        self.lines.append(self.chance.choice(["release", "release %d" % session, "release %d %d" % (session, self.chance.randrange(300))]))

    def crash(self, way=None):
        self.lines.append("crash " + (way or self.chance.choice(["old", "new", "%02x" % self.chance.randrange(256)])))
        self.sessions, self.joined = [], 0

    def renew(self):
        self.lines.append("renew")
        self.sessions, self.joined = [], 0

    # ---- the device

    def commit(self):
        """A batch up to its commit, and then to its end, with other events in between."""
        self.lines.append("commit")
        self.have_others_come()
        self.lines.append("settle")

    def begin(self):
        """A batch with few of its calls. Then it is carried to its end, or the service ends."""
        self.lines.append("take")
        for _ in range(self.chance.randrange(4)):
            self.lines.append("dev")
            self.have_others_come()
        self.chance.choice([self.carry_on, self.crash, self.renew])()

    def carry_on(self):
        self.lines += ["settle", "told"]

    def drain(self):
        self.lines.append("drain")

    def fail(self):
        """A call of a batch or of an opening fails. Then nothing is done until a crash or a renewal opens the device."""
        if self.chance.random() < 0.5:
            self.lines += [self.chance.choice(["fail 1", "fail 2", "fail write 1", "fail sync 1"]), "commit", "fail 0"]
        else:
            self.lines.append("fail %d" % self.chance.randint(1, 2))
            self.crash("new")
            self.join()
        self.read()
        self.chance.choice([self.crash, self.renew])()

    def have_others_come(self):
        if self.chance.random() < 0.5:
            self.chance.choice([self.read, self.release])()

    # ---- articles

    def post(self):
        session = self.session()
        self.ask(session, "POST")
        own_id = ["Message-ID: " + self.new_id()] if self.chance.random() < 0.6 else []
        self.send(session, [*own_id, *self.header()])

    def offer(self):
        session = self.session()
        own_id = self.new_id() if self.chance.random() < 0.8 else self.known_id()
        self.ask(session, "IHAVE " + own_id)
        # without these it is no article
        carried = ["Path: p!not-for-mail", "Date: Sun, 09 Sep 2001 01:46:40 +0000"] if self.chance.random() < 0.95 else []
        self.send(session, [*carried, "Message-ID: " + own_id, *self.header()])

    def header(self):
        return ["From: a@example.org", "Newsgroups: " + ",".join(self.groups()), "Subject: " + "x" * self.chance.randrange(1, 60)]

    def send(self, session, header):
        """An article, line by line where it is short."""
        count = self.chance.randrange(self.chance.choice(self.LINES))
        texts = [*header, "", *("%070d" % self.chance.randrange(1000) for _ in range(count)), "..", "."]
        if count < 20:
            for text in texts:
                self.say(session, text)
        else:
            self.lines.append("hex %d %s" % (session, "".join(text + "\r\n" for text in texts).encode().hex()))
        self.execute(session)

    # ---- readers

    def read(self):
        """Some commands of a session, which are served one by one, or after all have come."""
        session = self.session()
        texts = [self.command() for _ in range(self.chance.randrange(1, 4))]
        if self.chance.random() < 0.5:
            for text in texts:
                self.ask(session, text)
        else:
            for text in texts:
                self.say(session, text)
            for _ in texts:
                self.execute(session)

    def read_all(self):
        """All that a client can ask for of each group, and some articles by their ids."""
        session = self.session()
        for text in ("LIST ACTIVE", "LIST ACTIVE.TIMES", "LIST NEWSGROUPS", "NEWNEWS * " + date(MOMENT - 1)):
            self.ask(session, text)
        for name in (*GROUPS, *MORE_GROUPS):
            for text in ("LISTGROUP " + name, "OVER 1-", *("ARTICLE %d" % number for number in range(1, 6))):
                self.ask(session, text)
        for _ in range(10):
            self.ask(session, "%s %s" % (self.chance.choice(["STAT", "ARTICLE", "IHAVE"]), self.known_id()))
            # ends the article, if one is wanted
            self.ask(session, ".")

    def command(self):
        name, number, own_id = self.group(), self.chance.randrange(12), self.known_id()
        word = self.chance.choice(["ARTICLE", "HEAD", "BODY", "STAT", "OVER"])
        since = date(self.chance.randrange(MOMENT - 2, self.moment + 2))
        often = ["GROUP " + name, "%s %d" % (word, number), "%s %s" % (word, own_id), word, "NEXT", "LAST"]
        return self.chance.choice([
            *often, *often, "LISTGROUP", "LISTGROUP " + name, "LISTGROUP %s %d-" % (name, number), "OVER 1-",
            "OVER %d-%d" % (number, number + 3), "LIST", "LIST ACTIVE x.*", "LIST ACTIVE.TIMES", "LIST NEWSGROUPS", "LIST OVERVIEW.FMT",
            "NEWGROUPS " + since, "NEWNEWS * " + since, "NEWNEWS x.*,!x.b " + since, "DATE", "CAPABILITIES", "MODE READER", "NONE",
        ])

    def ask(self, session, text):
        self.say(session, text)
        self.execute(session)

    def say(self, session, text):
        self.lines.append(("line %d %s" % (session, text)).rstrip())

    def execute(self, session):
        self.lines.append("exec %d %d" % (session, self.moment))

    # ---- words

    def session(self):
        return self.chance.choice(self.sessions)

    def group(self):
        return self.chance.choices([self.chance.choice(GROUPS), self.chance.choice(MORE_GROUPS), ABSENT], [80, 15, 5])[0]

    def groups(self):
        names = self.chance.sample(GROUPS, self.chance.choice([1, 1, 2, 3]))
        return [*names, self.chance.choice([*MORE_GROUPS, ABSENT])] if self.chance.random() < 0.2 else names

    def new_id(self):
        self.ids += 1
        return "<%d@a.example>" % self.ids

    def known_id(self):
        """The id of an article that was sent, or one that the server may have made."""
        return "<%d@%s>" % (self.chance.randint(1, self.ids + 1), self.chance.choice(["a.example", "a.example", HOST]))


def date(moment):
    return time.strftime("%Y%m%d %H%M%S GMT", time.gmtime(moment))


class SmallAuthor(Author):
    """Writes a script in which a full volume answers at once, so that nothing else shows first that it is full."""

    WEIGHTS = {"expire": 16, "post": 60, "offer": 40, "read": 10, "read_all": 1, "commit": 5, "drain": 5, "crash": 1, "renew": 5}
    LINES = (5, 70, 3000)

    def make_group(self, name=None):
        self.hand_out()
        super().make_group(name)

    def expire(self):
        self.hand_out()
        super().expire()

    def send(self, session, header):
        self.hand_out()
        super().send(session, header)
        self.lines.append("release")

    def hand_out(self):
        """After this no reply is held."""
        self.lines += ["commit", "settle", "release"]


TESTS = [nothing_changes_for_a_client, a_renewal_makes_room, a_renewal_that_fails_loses_nothing]

# it takes minutes
LONG_ONES = [many_scripts]


if __name__ == "__main__":
    sys.exit(main(TESTS, LONG_ONES))
