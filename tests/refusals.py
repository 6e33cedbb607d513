#!/usr/bin/env python3
"""Refuses memory to commands and to the events of scripts, one request at a time. refusals.py NEWSD [NAME..]

A command that is refused memory before it has done anything ends as `newsd: E2 Memory`, status 1. So does a renewal; the old volume then
has each octet that it had, and the new one isn't there or is whole.

In `newsd sim` a line whose request is refused answers `E2 Memory`. All is as before then, as a probe shows that is played next. Where the
same line is played again, its answer, and what the probe shows then, are those of a run that was refused nothing. A refused opening leaves
nothing open, and a device that opens to what it held. Where a line can't be read or printed for want of memory, the program ends as
`newsd: E2 Memory`. Lines that need no memory answer as ever with every request refused. Once a device has failed a session is told that the
service ends, whatever its message says: so that answer comes, too, where only the message couldn't be read.

There each refusal happens in a copy of the process, which the library of refusing.c makes, so that a script is played once. Every request
of a script is refused. What the device has is probed in every eighth copy."""
import collections
import concurrent.futures
import functools
import itertools
import os
import resource
import shutil
import subprocess
import sys
import tempfile
import time
import traceback

from newsd import HOST, octets

SOURCE = os.path.join(os.path.dirname(os.path.abspath(__file__)), "refusing.c")
MOMENT = 1000000000
SECONDS = 600
# a process of large pages is copied sooner
LARGE_PAGES = {"GLIBC_TUNABLES": "glibc.malloc.hugetlb=1"}
REFUSAL = "E2 Memory\n"
CLOSED = "E4 Halted\n"
ENDED = "newsd: E2 Memory\n"
FAULT = "E1 Fault\n"
NO_SESSION = "E10 NoSession\n"

# the words of lines that need no memory; over a cache the device's calls do
NEED_NONE = {"take", "told", "leave", "fail", "dev"}
NEED_NONE_OVER_CACHE = NEED_NONE - {"dev"}

# lines that show what the device has: it crashes and is opened again. They are played in each copy whose number this divides
DEVICE_PROBE = ["fail 0", "crash old", "spool"]
DEVICE_EVERY = 8
# the device calls of a probe that are followed one by one
TICKS = 24

# what lines for a session that isn't there print after the end, the last of which may be cut
PADDING = ("E10 NoSession", "E4 Halted")

HEADER = ["Path: p!not-for-mail", "Date: Sun, 09 Sep 2001 01:46:40 +0000", "From: a@example.org", "Newsgroups: x.a"]
BARE_ARTICLE = ["From: a@example.org", "Newsgroups: x.a", "Subject: one", "", "hi"]


def article(number):
    return [*HEADER, "Message-ID: <%d@a.example>" % number, "Subject: one", "", "hi"]


def group(name, status="y"):
    return "group %s %s %d test" % (name, status, MOMENT)


def execute(session):
    return "exec %d %d" % (session, MOMENT)


def ask(session, *texts):
    """Command lines, each of which is served as it comes."""
    return [line for text in texts for line in ("line %d %s" % (session, text), execute(session))]


def send(session, texts):
    """An article and the line that ends it, which are served as one message."""
    return [("line %d %s" % (session, text)).rstrip() for text in [*texts, "."]] + [execute(session)]


def post(session, number):
    return ask(session, "POST") + send(session, article(number))


def carry(images):
    """The batch of so many images, up to its commit: a line for each device call."""
    return ["take", *["dev"] * (images + 4), "told"]


class Script:
    """A script, and the first of its lines that is refused memory."""

    def __init__(self, lines, first=0, is_cached=False):
        self.lines, self.first = lines, first
        self.words = ["--cache"] if is_cached else []
        self.need_none = NEED_NONE_OVER_CACHE if is_cached else NEED_NONE
        self.sessions = self.lines.count("join")

    def probe(self):
        """Lines that show what stands. What each session has waiting is served, and what it may read is released. Then each asks for a
        group that is made now: the device call after which it is answered shows how many blocks are dirty."""
        others = range(1, self.sessions + 2)
        asked = [line for session in others for line in ask(session, ".", "GROUP probe.a", "STAT <1@a.example>")]
        ticks = ["dev", "told", "release", "line 99"] * TICKS
        begin = [*map(execute, others), "release", "spool", group("probe.a"), "join", *asked, "take"]
        return [*begin, *ticks, "settle", "commit", "release", "spool"]


GROUP_IS_MADE = [group("x.a"), *carry(4)]
POST = [*GROUP_IS_MADE, "join", *post(1, 1), "release", *carry(6), "release", *ask(1, "GROUP x.a"), "release"]
READS = ask(1, "STAT <1@a.example>", "GROUP x.a", "OVER 1", "ARTICLE 1", "LIST")
# seven batches after that of the group
SEVEN_POSTS = [line for number in range(1, 8) for line in post(1, number) + carry(6)]
# eight segments are open and three blocks were carried home
IN_A_CHECKPOINT = [*GROUP_IS_MADE, "join", *SEVEN_POSTS, "dev", "dev", "dev"]

SCRIPTS = {
    "a_post_is_held_until_its_commit": Script(POST),
    "two_feeds_offer_one_article": Script(
        [*GROUP_IS_MADE, "join", "join", *ask(1, "IHAVE <1@a.example>"), *ask(2, "IHAVE <1@a.example>"), *send(1, article(1)),
         *send(2, article(1)), "release", *carry(6), "release"]),
    "headers_are_injected": Script(
        [*GROUP_IS_MADE, "join", *ask(1, "POST"), *send(1, BARE_ARTICLE), *READS, "release", *carry(6), "release"]),
    "sixty_four_sessions_join": Script([*GROUP_IS_MADE, *["join"] * 65, "leave 7", "join", "release", "release"]),
    "the_operator_makes_and_expires": Script(
        [*GROUP_IS_MADE, group("x.b", "n"), group("x.b", "n"), "expire x.a 1", "join", *post(1, 1), "expire x.a 1", "expire x.a 1",
         "expire x.c 1", *ask(1, "GROUP x.a", "LIST", "QUIT"), "release", *carry(11), "release", "crash new", "spool"]),
    "a_fault_halts": Script(
        [*GROUP_IS_MADE, "join", "join", *post(1, 1), "take", "dev", "fail 1", "dev", "told", *ask(2, "STAT <1@a.example>"), "join",
         group("x.b"), "expire x.a 1", "leave 1", "release"]),
    "two_open_segments_are_opened": Script([*POST, "crash 00", "spool", "join", *READS, "release"], first=len(POST)),
    "eight_open_segments_are_opened": Script(
        [*IN_A_CHECKPOINT, "crash 00", "spool", "join", *READS, "release"], first=len(IN_A_CHECKPOINT)),
    "a_post_over_a_cache": Script(POST, is_cached=True),
    "the_service_stops": Script([*POST[:-1], "release 1 9", "release 1", "stop", *ask(1, "DATE"), "release 1"]),
}

# commands that end before they have done anything
COMMANDS = [
    ["--version"],
    ["serve", "no-such-file", "--port", "1119"],
    ["dump", "no-such-file"],
    ["group", "no-such-file", "x.a", "y", "0", "test"],
    ["expire", "no-such-file", "--older-than", "30"],
    ["renew", "no-such-file", "--in-place"],
]

# of a renewal to a new file, and of one in place, each so many-th request is refused
BESIDE_EVERY, IN_PLACE_EVERY = 5, 20
# the sizes of the volume that is renewed
SIZES = ["--blocks", "1024", "--inodes", "64"]


class Copy:
    """What a copy of the process printed and how it ended."""

    def __init__(self, folder, row):
        name, line, octets, status = row.split()
        self.kind, self.number, self.line, self.octets, status = name[0], int(name[1:]), int(line), int(octets), int(status)
        self.status = os.waitstatus_to_exitcode(status) if status >= 0 else None
        self.faults = read_text(os.path.join(folder, name + ".err"))
        printed = read_text(os.path.join(folder, name + ".out"))
        self.printed = printed if self.status else without_padding(printed)

    def has_device_probe(self):
        return self.kind not in "pa" or self.number % DEVICE_EVERY == 0

    def has_printed(self, text):
        return (self.status, self.faults, self.printed) == (0, "", text)

    def __repr__(self):
        return "copy %s%d of line %d, %d octets, status %s, %r, ..%r" % (
            self.kind, self.number, self.line, self.octets, self.status, self.faults, self.printed[-200:])


def read_text(path):
    with open(path, "rb") as file:
        return file.read().decode()


def without_padding(printed):
    lines = printed.splitlines()
    while lines and any(text.startswith(lines[-1]) for text in PADDING):
        lines.pop()
    return "".join(line + "\n" for line in lines)


class Judged:
    """What came of a test: how many refusals ended how, and what went wrong."""

    def __init__(self, counts, faults):
        self.counts, self.faults = counts, faults


class Judge:
    """Judges the copies of one script."""

    def __init__(self, script, printed, copies):
        self.script, self.printed, self.copies = script, printed, copies
        # by the number of a line: what was printed before it, and what the probes print in its place
        self.before = {copy.line: copy.printed[:copy.printed.rindex("spool ")] for copy in copies if copy.kind == "b"}
        self.probed = {copy.line: copy.printed[len(self.before[copy.line]):] for copy in copies if copy.kind == "s"}
        self.spools = {copy.line: copy.printed[copy.printed.rindex("spool "):] for copy in copies if copy.kind == "b"}

    def word(self, copy):
        return self.script.lines[copy.line - 1].split()[0]

    def answer(self, line):
        """What a line prints."""
        return self.before[line + 1][len(self.before[line]):]

    def probe(self, copy, line):
        """What the probes of a copy print in place of a line."""
        probed = self.probed[line]
        return probed if copy.has_device_probe() else probed[:probed.rindex("opened ")]

    def has_done(self, copy):
        """Whether the line was done."""
        return copy.has_printed(self.before[copy.line + 1] + self.probe(copy, copy.line + 1))

    def has_refused(self, copy):
        """Whether the line was refused, and all is as before."""
        return copy.has_printed(self.before[copy.line] + REFUSAL + self.probe(copy, copy.line))

    def has_done_again(self, copy):
        """Whether the line was refused, and was done when it was played again."""
        return copy.has_printed(self.before[copy.line] + REFUSAL + self.answer(copy.line) + self.probe(copy, copy.line + 1))

    def has_told_the_end(self, copy):
        """Whether a session was told that the service ends although its message wasn't read; it is closed where the line is played again."""
        if self.word(copy) != "exec" or FAULT not in self.before[copy.line]:
            return False
        again = NO_SESSION if copy.kind == "a" else ""
        return copy.has_printed(self.before[copy.line + 1] + again + self.probe(copy, copy.line + 1))

    def has_closed(self, copy):
        """Whether nothing is open after a refused opening, and the device opens to what it held."""
        closed = self.before[copy.line] + REFUSAL
        if copy.has_device_probe():
            closed += CLOSED * len(self.script.probe()) + self.answer(copy.line) + self.spools[copy.line + 1]
        return copy.has_printed(closed)

    def has_ended(self, copy):
        """Whether the program ended for want of memory for a line's text, with the lines before it done."""
        reached = copy.printed.startswith(self.before[copy.line]) and self.before[copy.line + 1].startswith(copy.printed)
        return (copy.status, copy.faults) == (1, ENDED) and reached

    def end_of(self, copy):
        """How a copy ended, where it may end so."""
        if copy.kind in "bs":
            return "stood" if (copy.status, copy.faults) == (0, "") else None
        if copy.kind == "n" and self.word(copy) in self.script.need_none:
            return "needed no memory" if self.has_done(copy) else None
        if self.has_ended(copy):
            return "ended"
        if self.has_told_the_end(copy):
            return "told of the end"
        if copy.kind == "a":
            return "done again" if self.has_done_again(copy) else None
        if self.word(copy) == "crash":
            return "closed" if self.has_closed(copy) else None
        if copy.kind == "n" and self.has_done(copy):
            return "needed no memory"
        return "refused" if self.has_refused(copy) else None

    def judge(self):
        """How many copies ended how, with what went wrong."""
        assert self.printed == self.before[len(self.script.lines) + 1], self.printed
        counts, faults = collections.Counter(), []
        for copy in self.copies:
            end = self.end_of(copy)
            if copy.kind not in "bs":
                counts[("all requests refused: " if copy.kind == "n" else "") + (end or "WRONG")] += 1
            if end is None:
                faults.append("%s: %r" % ([*self.script.lines, "the end"][copy.line - 1], copy))
        return Judged(counts, faults)


def refuse_commands(program, library):
    """Refuses each request of each command, a run for each."""
    counts, faults = collections.Counter(), []
    with tempfile.TemporaryDirectory(prefix="newsd-refusals-") as folder:
        for words in COMMANDS:
            as_ever = ends_as([program, *words])
            for number in itertools.count(1):
                refused = os.path.join(folder, words[0] + str(number))
                came = ends_as([program, *words], LD_PRELOAD=library, NEWSD_REFUSED_REQUEST=str(number), NEWSD_REFUSED=refused)
                if not os.path.exists(refused):
                    break
                # what the library of the toolchain can do without it does without
                end = "ended" if came == (1, "", ENDED) else "as ever" if came == as_ever else "WRONG"
                counts[end] += 1
                if end == "WRONG":
                    faults.append("%s, request %d: %r" % (" ".join(words), number, came))
    return Judged(counts, faults)


def refuse_renewals(program, library):
    """Refuses some requests of a renewal to a new file, and of one in place, a run for each."""
    counts, faults = collections.Counter(), []
    with tempfile.TemporaryDirectory(prefix="newsd-refusals-") as folder:
        old, new, whole = (os.path.join(folder, name) for name in ("old", "new", "whole"))
        make_volume(program, old)
        as_ever = ends_as([program, "renew", old, whole])
        before, after = octets(old), octets(whole)
        for place, every in ((new, BESIDE_EVERY), ("--in-place", IN_PLACE_EVERY)):
            renewed = old if place == "--in-place" else new
            for number in itertools.count(1, every):
                put_back(old, before, new)
                refused = os.path.join(folder, "refused%s%d" % (place == new, number))
                came = ends_as([program, "renew", old, place], LD_PRELOAD=library, NEWSD_REFUSED_REQUEST=str(number), NEWSD_REFUSED=refused)
                if not os.path.exists(refused):
                    break
                is_whole = os.path.exists(renewed) and octets(renewed) == after
                is_before = octets(old) == before and not os.path.exists(new)
                # what the library of the toolchain can do without it does without
                end = "ended" if came == (1, "", ENDED) and (is_whole or is_before) else "as ever" if came == as_ever and is_whole else "WRONG"
                counts[end] += 1
                if end == "WRONG":
                    faults.append("renew %s, request %d: %r" % (place, number, came))
    return Judged(counts, faults)


def make_volume(program, path):
    """A volume with three articles, two of which are gone."""
    texts = [("\n".join(article(number)) + "\n").encode() for number in (1, 2, 3)]
    batch = b"".join(b"#! rnews %d\n" % len(text) + text for text in texts)
    for words in (["format", path, "--host", HOST, *SIZES], ["group", path, "x.a", "y", str(MOMENT), "test"], ["import", path],
                  ["expire", path, "x.a", "2"]):
        subprocess.run([program, *words], input=batch, capture_output=True, timeout=SECONDS, check=True)


def put_back(old, before, new):
    """Has the old volume as it was, and no new one."""
    if octets(old) != before:
        with open(old, "wb") as file:
            file.write(before)
    if os.path.exists(new):
        os.unlink(new)


def ends_as(words, **settings):
    """The status, the output and the faults of a program."""
    done = subprocess.run(
        words, stdin=subprocess.DEVNULL, capture_output=True, timeout=SECONDS, text=True, env=dict(os.environ, **settings))
    return done.returncode, done.stdout, done.stderr


def play(program, library, script):
    """Plays a script, and judges what came of it."""
    with tempfile.TemporaryDirectory(prefix="newsd-refusals-") as folder:
        settings = {
            "LD_PRELOAD": library, "NEWSD_REFUSALS": folder, "NEWSD_REFUSALS_FROM": str(script.first),
            "NEWSD_REFUSALS_DEVICE": str(DEVICE_EVERY), **LARGE_PAGES}
        lines = [*script.lines, ";", *script.probe(), ";", *DEVICE_PROBE, ""]
        done = subprocess.run(
            [program, "sim", "--host", HOST, *script.words], input="\n".join(lines).encode(), capture_output=True,
            timeout=SECONDS, env=dict(os.environ, **settings))
        assert (done.returncode, done.stderr) == (0, b""), done
        copies = [Copy(folder, row) for row in read_text(os.path.join(folder, "list")).splitlines()]
    return Judge(script, done.stdout.decode(), copies).judge()


def compilers():
    """The words of compilers for C: that of the toolchain, beside `rt`, and then any other."""
    found = shutil.which("rt")
    if found:
        kit = os.path.dirname(os.path.dirname(os.path.realpath(found)))
        yield [os.path.join(kit, "toolchain", "bin", "clang"), "-fuse-ld=lld"]
    for name in (os.environ.get("CC"), "cc", "gcc", "clang"):
        if name:
            yield [name]


def compile_library(folder, source=SOURCE):
    """The library of a source beside this file, that which refuses if none is named, or None where nothing compiles it."""
    library = os.path.join(folder, "preloaded.so")
    for words in compilers():
        if shutil.which(words[0]):
            words += ["-O1", "-shared", "-fPIC", "-nostdlib", "-o", library, source]
            done = subprocess.run(words, capture_output=True)
            if done.returncode == 0:
                return library
    return None


def processor_seconds():
    used = resource.getrusage(resource.RUSAGE_CHILDREN)
    return used.ru_utime + used.ru_stime


TESTS = {"commands_begin": refuse_commands, "a_volume_is_renewed": refuse_renewals, **{name: functools.partial(play, script=script) for name, script in SCRIPTS.items()}}


def main():
    program, wanted = os.path.abspath(sys.argv[1]), sys.argv[2:] or list(TESTS)
    start = time.monotonic()
    with tempfile.TemporaryDirectory(prefix="newsd-refusing-") as folder:
        library = compile_library(folder)
        if library is None:
            print("%s ... skipped: there is no compiler for C" % ", ".join(wanted))
            print("0 passed, 0 failed, %d skipped" % len(wanted))
            return 0
        with concurrent.futures.ThreadPoolExecutor(os.cpu_count()) as threads:
            playing = {name: threads.submit(TESTS[name], program, library) for name in wanted}
            failed = sum(not tell(name, played) for name, played in playing.items())
    print("%.1f s, %.1f s of a processor" % (time.monotonic() - start, processor_seconds()))
    print("%d passed, %d failed, 0 skipped" % (len(wanted) - failed, failed))
    return 1 if failed else 0


def tell(name, played):
    """Prints what came of a test, and answers whether all was right."""
    try:
        judged = played.result()
    except Exception as failure:
        judged = Judged({}, ["".join(traceback.format_exception(failure))])
    counts = ", ".join("%s %d" % count for count in sorted(judged.counts.items()))
    print("%s ... %s (%s)" % (name, "FAILED" if judged.faults else "ok", counts), flush=True)
    for fault in judged.faults:
        print("  " + fault, flush=True)
    return not judged.faults


if __name__ == "__main__":
    sys.exit(main())
