#!/usr/bin/env python3
"""System tests of the log of `newsd serve`: the lines of its standard error. logs.py NEWSD [NAME..]"""
import calendar
import contextlib
import errno
import fcntl
import itertools
import os
import re
import socket
import struct
import subprocess
import sys
import tempfile
import threading
import time

from large import BEFORE_HOMES, BLOCK
from listening import CALLER, DENIED, SERVER, Link, serving
from newsd import (
    ALL_FROM_ONE, FAULT, GREETING, GROUP, SERVICE_ENDS, Caller, article, end_with_parent, free_port, long_article, message_id, octets,
    wait_until)
from playing import Skipped, main
from refusals import compile_library

LINE = re.compile(r"time=(\d{4}-\d\d-\d\dT\d\d:\d\d:\d\dZ) event=([a-z]+)((?: [a-z]+=[^ ]+)*)")
# what comes as often as callers like
OF_SESSIONS = ("begin", "post", "cause")
# what comes of a machine that is slow
OF_OPENINGS = ("opening",)
SHORT_SESSIONS = 10000
# that of its beginning, and that of its end
LINES_OF_A_SESSION = 2
CALLERS_AT_ONCE = 8
REFUSED_CALLERS = 300
# the lines that wait for the reader of a log, besides those in its pipe
LINES_KEPT = 1024
# longer than the server lets a caller be that takes nothing
SECONDS_OF_A_STALL = 240
# has each read of the device take a millisecond at least, and a microsecond for each four octets
SLOWING = os.path.join(os.path.dirname(os.path.abspath(__file__)), "slowing.c")
SECONDS_AT_REST = 2
# an opening is told of from this many seconds on
SECONDS_UNTOLD = 2


class Log:
    """The log of a server, which is read as it comes."""

    def __init__(self, stream):
        self.stream, self.lines = stream, []
        self.reading = threading.Thread(target=self.read, daemon=True)
        self.reading.start()

    def read(self):
        try:
            for line in self.stream:
                self.lines.append(line.decode())
        except ValueError:
            # the test has ended
            pass

    def events(self, name=None):
        """The events of this name as pairs of their name and fields, once each line was looked at; without a name, all but the beginnings
        of sessions, what became of their posts, and slow openings. A refused post has the name `cause` here, and a refused caller `refused`."""
        found = [self.event(line) for line in list(self.lines) if not line.startswith("newsd: ")]
        return [it for it in found if (it[0] == name if name else it[0] not in OF_SESSIONS + OF_OPENINGS)]

    @staticmethod
    def event(line):
        found = LINE.fullmatch(line.rstrip("\n"))
        assert found and line.endswith("\n"), line
        moment = calendar.timegm(time.strptime(found.group(1), "%Y-%m-%dT%H:%M:%SZ"))
        assert abs(moment - time.time()) < 300, line
        fields = dict(field.split("=", 1) for field in found.group(3).split())
        return "cause" if "cause" in fields else found.group(2), fields

    def wait(self, name, count):
        """The first so many events of this name."""
        wait_until(lambda: len(self.events(name)) >= count, 20)
        return self.events(name)

    def line(self, at):
        """A line, with the numbers masked that no test knows. Those of the beginnings of sessions and of posts don't count."""
        line = [it for it in self.lines if self.event(it)[0] not in OF_SESSIONS + OF_OPENINGS][at]
        return re.sub(r"time=\S+", "time=T", re.sub(r"peer=127\.0\.0\.1:\d+", "peer=P", line.rstrip("\n")))


class Counting:
    """A caller that counts the octets that it sends and gets."""

    def __init__(self, port):
        self.caller = Caller(port)
        self.sent, self.got = 0, len(self.caller.greeting) + 2
        self.peer = "127.0.0.1:%d" % self.caller.socket.getsockname()[1]

    def send(self, octets):
        self.caller.send(octets)
        self.sent += len(octets)

    def line(self):
        line = self.caller.line()
        self.got += len(line) + 2
        return line

    def ask(self, line):
        self.send(line.encode() + b"\r\n")
        return self.line()

    def post(self, octets):
        assert self.ask("POST").startswith("340")
        self.send(octets)
        return self.line()

    def ended(self, session, messages, taken, refused, why):
        """The fields of the line that tells of its end."""
        names = ("peer", "session", "messages", "taken", "refused", "in", "out", "why")
        values = (self.peer, session, messages, taken, refused, self.sent, self.got, why)
        return dict(zip(names, map(str, values)))


def each_end_of_a_session_is_logged(volume):
    volume.make_group()
    with volume.serve() as server:
        log = Log(server.process.stderr)
        # it leaves by QUIT
        one = Counting(server.port)
        assert one.ask("STAT <9@a.example>") == "430 No such article"
        assert one.post(article(1)) == "240 Article received"
        assert one.post(article(1)) == "441 Article not accepted"
        assert one.ask("FOO") == "500 Unknown command"
        assert one.ask("IHAVE " + message_id(2)).startswith("335 ")
        one.send(article(2))
        assert one.line() == "235 Article transferred"
        assert one.ask("IHAVE " + message_id(3)).startswith("335 ")
        one.send(article(3).replace(b"x.a", b"x.none"))
        assert one.line() == "437 Article rejected"
        assert one.ask("QUIT") == "205 Bye"
        assert log.wait("end", 1)[0] == ("end", one.ended(1, 11, 2, 2, "quit"))
        assert log.events("begin") == [("begin", {"peer": one.peer, "session": "1"})], log.lines
        # it closes
        two = Counting(server.port)
        assert two.ask("DATE").startswith("111 ")
        two.caller.close()
        assert log.wait("end", 2)[1] == ("end", two.ended(2, 1, 0, 0, "closed"))
        # it sends no more, and a part of a message
        three = Counting(server.port)
        three.send(b"POST\r\nPath: half")
        assert three.line() == "340 Send article"
        three.caller.socket.shutdown(socket.SHUT_WR)
        assert three.caller.has_ended()
        assert log.wait("end", 3)[2] == ("end", three.ended(3, 1, 0, 0, "closed"))
        # its connection breaks
        four = Counting(server.port)
        four.caller.socket.setsockopt(socket.SOL_SOCKET, socket.SO_LINGER, struct.pack("ii", 1, 0))
        four.caller.close()
        assert log.wait("end", 4)[3] == ("end", four.ended(4, 0, 0, 0, "failed"))
        # it is there at the end
        five = Counting(server.port)
        assert five.ask("GROUP " + GROUP).startswith("211 ")
        assert server.order("stop") == "stopped"
        assert server.process.wait(10) == 0
        log.reading.join(10)
        assert log.events("end")[4] == ("end", five.ended(5, 1, 0, 0, "stopped"))
        assert len(log.events()) == 5, log.lines
        assert log.line(0) == ("time=T event=end peer=P session=1 messages=11 taken=2 refused=2 in=%d out=%d why=quit"
                               % (one.sent, one.got)), log.lines
        assert [fields["session"] for _, fields in log.events("begin")] == ["1", "2", "3", "4", "5"], log.lines
        posts = [(fields["session"], fields["id"], fields["serial"]) for _, fields in log.events("post")]
        assert posts == [("1", message_id(1), "2"), ("1", message_id(2), "3")], log.lines
        causes = [(fields["session"], fields["cause"]) for _, fields in log.events("cause")]
        assert causes == [("1", "repeat"), ("1", "nogroup")], log.lines
        refused = [line for line in log.lines if "cause=repeat" in line]
        assert [re.sub(r"time=\S+", "time=T", line) for line in refused] == ["time=T event=refused session=1 cause=repeat\n"], refused


def texts_by_cause():
    """A text for each cause of a refusal that a text has by itself, in an empty spool with an open and a closed group."""
    good = article(1)
    fields = b"".join(b"X-%d: %s\r\n" % (number, b"x" * 900) for number in range(10))
    groups = b",".join(b"x.g%d" % number for number in range(17))
    return [
        ("octets", good.replace(b"hi\r\n", b"h\ri\r\n")),
        ("noend", b"Subject: one\r\n.\r\n"),
        ("field", good.replace(b"Subject: one", b"Subject one")),
        ("twice", good.replace(b"Subject: one", b"Subject: one\r\nSubject: two")),
        ("missing", good.replace(b"From: a@example.org\r\n", b"")),
        ("missing", good.replace(b"Subject: one", b"Subject:  ")),
        ("id", good.replace(b"<1@a.example>", b"1@a.example")),
        ("groups", good.replace(b"Newsgroups: x.a", b"Newsgroups: " + groups)),
        ("long", good.replace(b"Subject: one\r\n", b"Subject: one\r\n" + fields)),
        ("long", article(1, body="\r\n".join(["x" * 70] * 5000))),
        ("nogroup", good.replace(b"Newsgroups: x.a", b"Newsgroups: x.none")),
    ]


def each_refused_post_has_its_cause(volume):
    """Posts and transfers, each by a session's own thread and left to the thread that flushes."""
    volume.make_group()
    causes = texts_by_cause()
    shut = article(1).replace(b"Newsgroups: x.a", b"Newsgroups: x.shut,x.a")
    with volume.serve() as server:
        log = Log(server.process.stderr)
        server.order("group x.shut n 1000000000 test")
        with server.call() as caller:
            expected = []
            for cause, text in [*causes, ("closed", shut), ("id", article(1).replace(b"@a.example", b"@news.example"))]:
                assert caller.post(text) == "441 Article not accepted", cause
                # the command after it goes with it, so it is not left to the thread that flushes
                caller.send(b"POST\r\n")
                assert caller.line().startswith("340"), cause
                caller.send(text + b"DATE\r\n")
                assert (caller.line(), caller.line()[:3]) == ("441 Article not accepted", "111"), cause
                expected += [cause, cause]
            nowhere = article(2).replace(b"Newsgroups: x.a", b"Newsgroups: x.none")
            for cause, text in [*causes, ("otherid", article(2)), ("otherid", nowhere)]:
                assert caller.ask("IHAVE " + message_id(1)).startswith("335 "), cause
                caller.send(text)
                assert caller.line() == "437 Article rejected", cause
                expected.append(cause)
            assert caller.ask("IHAVE " + message_id(1)).startswith("335 ")
            caller.send(shut)
            assert caller.line() == "235 Article transferred"
            assert caller.post(article(1)) == "441 Article not accepted"
            expected.append("repeat")
        log.wait("end", 1)
        wait_until(lambda: len(log.events("cause")) >= len(expected))
        assert [fields for _, fields in log.events("cause")] == [{"session": "1", "cause": cause} for cause in expected], log.lines
        assert [fields["id"] for _, fields in log.wait("post", 1)] == [message_id(1)], log.lines


def a_refusal_of_the_volume_has_its_cause(volume):
    """`full`: the volume has no room, or of a larger one only what is left to the operator. `stopped`: its device has failed."""
    small = volume.another("small", blocks=1024, inodes=64)
    small.make_group()
    with small.serve() as server, server.call() as caller:
        log = Log(server.process.stderr)
        replies = [caller.post(article(number)) for number in range(70)]
        full = replies.count("441 Article not accepted")
        log.wait("cause", full)
        assert full and [fields["cause"] for _, fields in log.events("cause")] == ["full"] * full, log.lines
        log.wait("post", 70 - full)
    large = volume.another("large", blocks=8192, inodes=2048)
    large.make_group()
    with large.serve() as server, server.call() as caller:
        log = Log(server.process.stderr)
        taken = 0
        while caller.post(long_article(taken, 260_000)) == "240 Article received":
            taken += 1
        free = 8192 - int(server.order("status").split()[5])
        assert 576 > free > 576 - 70, (taken, free)
        assert log.wait("cause", 1)[-1][1] == {"session": "1", "cause": "full"}, log.lines[-3:]
        assert server.order("group x.b y 1000000000 test") == str(taken + 2), log.lines[-3:]
    with volume.another("failing").serve() as server, server.call() as caller, server.call() as late:
        log = Log(server.process.stderr)
        server.order("group x.a y 1000000000 test")
        assert late.ask("POST").startswith("340")
        server.have_writes_fail()
        caller.send(b"POST\r\n" + article(1))
        log.wait("fault", 1)
        late.send(article(2))
        assert late.line() == "400 Service ends", log.lines
        assert log.wait("cause", 1)[-1][1] == {"session": "2", "cause": "stopped"}, log.lines
        assert not log.events("post"), log.lines


def each_post_is_logged_once_it_is_durable(volume):
    """By many callers at once, some of whom send one post after another. No line is doubled or comes without its post."""
    volume.make_group()
    with volume.serve() as server:
        log = Log(server.process.stderr)

        def post(own):
            with server.call() as caller:
                for number in range(own, own + 40):
                    assert caller.post(article(number)) == "240 Article received"
                # without an id: it gets one of the host
                made = article(0).replace(b"Message-ID: <0@a.example>\r\n", b"")
                assert caller.ask("POST").startswith("340")
                caller.send(made + b"QUIT\r\n")
                assert (caller.line(), caller.line()) == ("240 Article received", "205 Bye")

        threads = [threading.Thread(target=post, args=(own * 1000,)) for own in range(1, 9)]
        for thread in threads:
            thread.start()
        for thread in threads:
            thread.join(60)
        found = [fields for _, fields in log.wait("post", 8 * 41)]
        assert server.order("stop") == "stopped"
        assert server.process.wait(10) == 0
        log.reading.join(10)
        assert len(log.events("post")) == len(found) == 8 * 41, len(found)
        serials = [int(fields["serial"]) for fields in found]
        assert sorted(serials) == list(range(2, 2 + 8 * 41)), serials
        own = {message_id(number) for at in range(1, 9) for number in range(at * 1000, at * 1000 + 40)}
        made = {"<%s@news.example>" % fields["serial"] for fields in found} & {fields["id"] for fields in found}
        assert {fields["id"] for fields in found} == own | made and len(made) == 8, made
    dumped = "\n".join(volume.dump())
    assert all(fields["id"] in dumped for fields in found), dumped[:300]


def each_refused_caller_is_logged(volume):
    volume.make_group()
    with volume.serve(words=ALL_FROM_ONE) as server:
        log = Log(server.process.stderr)
        callers = [server.call() for _ in range(64)]
        at_rest = server.descriptors() - len(callers)
        late = Caller(server.port)
        assert late.greeting == SERVICE_ENDS
        peer = "127.0.0.1:%d" % late.socket.getsockname()[1]
        assert log.wait("refused", 1) == [("refused", {"peer": peer, "why": "sessions", "times": "1"})]
        assert log.line(0) == "time=T event=refused peer=P why=sessions times=1", log.lines
        for caller in [late, *callers]:
            caller.close()
        log.wait("end", 64)
        # no descriptor is left for a caller
        wait_until(lambda: server.descriptors() == at_rest)
        server.limit_descriptors(at_rest)
        # the first call already has its descriptor while it is awaited
        with server.call() as caller:
            assert caller.greeting == GREETING
            with Caller(server.port) as late:
                assert late.greeting == SERVICE_ENDS
                peer = "127.0.0.1:%d" % late.socket.getsockname()[1]
            assert log.wait("refused", 2)[1] == ("refused", {"peer": peer, "why": "descriptors", "times": "1"})


def refused_callers_are_summed_up(volume):
    """By address and cause, a line a second. The first line of an address has its first caller's port."""
    volume.make_group()
    with volume.serve(words=["--most-from", "1"]) as server:
        log, start = Log(server.process.stderr), time.monotonic()
        sources = ("127.0.0.1", "127.0.0.2")
        callers = [Caller(server.port, source=source) for source in sources]
        firsts = []
        for number in range(REFUSED_CALLERS):
            for source in sources:
                with Caller(server.port, source=source) as late:
                    assert late.greeting == SERVICE_ENDS
                    if number == 0:
                        firsts.append("%s:%d" % late.socket.getsockname())
        wait_until(lambda: all(refused_from(log, source) == REFUSED_CALLERS for source in sources), 20)
        seconds = time.monotonic() - start
        found = log.events("refused")
        assert {fields["why"] for _, fields in found} == {"address"}, found
        assert {first for first in firsts} <= {fields["peer"] for _, fields in found}, (firsts, found)
        assert len(found) <= len(sources) * (1 + seconds) and not log.events("lost"), (seconds, found)
        print("  %d refused in %.1f s, %d lines" % (len(sources) * REFUSED_CALLERS, seconds, len(found)), flush=True)
        for caller in callers:
            caller.close()


def refused_from(log, address):
    """How many callers of an address were refused, by the log."""
    return sum(int(fields["times"]) for _, fields in log.events("refused") if fields["peer"].startswith(address + ":"))


def a_caller_from_elsewhere_that_is_refused_is_logged(volume):
    with Link() as link:
        port = free_port()
        with serving(volume, ["--listen", "0.0.0.0:%d" % port, "--allow", "192.0.2.8"], 1, by=link.by) as (process, _):
            log = Log(process.stderr)
            assert link.asks(link.far, SERVER, port, CALLER, times=3) == [DENIED, ""] * 3
            wait_until(lambda: refused_from(log, CALLER) == 3)
            assert {fields["why"] for _, fields in log.events("refused")} == {"access"}, log.lines
            assert len(log.events()) == len(log.events("refused")), log.lines
            process.kill()
            log.reading.join(10)


def a_fault_is_logged(volume):
    volume.make_group()
    with volume.serve() as server, server.call() as caller:
        log = Log(server.process.stderr)
        assert caller.post(article(1)) == "240 Article received"
        server.have_writes_fail()
        caller.send(b"POST\r\n" + article(2))
        greetings = []
        while SERVICE_ENDS not in greetings:
            try:
                with Caller(server.port) as late:
                    greetings.append(late.greeting)
            except ConnectionError:
                break
        assert server.process.wait(20) == 1
        log.reading.join(10)
        assert log.lines[-1] == FAULT[1], log.lines
        assert log.events("fault") == [("fault", {"error": "toolarge"})], log.lines
        # the article that was accepted beside the fault is undone, so it doesn't count as taken
        ended = [fields for _, fields in log.events("end") if fields["session"] == "1"]
        assert [(fields["taken"], fields["messages"]) for fields in ended] == [("1", "4")], log.lines
        refused = [fields["why"] for _, fields in log.events("refused")]
        assert set(refused) <= {"halted"}, log.lines
        assert [line for line in log.lines if line.endswith(" event=fault error=toolarge\n")], log.lines


def a_nearly_full_volume_is_logged_once(volume):
    """Once where nine tenths of the inodes are used, and once where nine tenths of the blocks are."""
    for blocks, inodes, texts, by in ((1024, 64, [article(number) for number in range(61)], "inodes"),
                                      (4096, 4096, [article(number, body="x" * 40000) for number in range(360)], "blocks")):
        small = volume.another(by, blocks=blocks, inodes=inodes)
        small.make_group()
        with small.serve(words=["--quiet"]) as server, server.call() as caller:
            log = Log(server.process.stderr)
            replies = [caller.post(text)[:3] for text in texts]
            found = log.wait("full", 1)
            assert server.order("stop") == "stopped"
            assert server.process.wait(10) == 0
            log.reading.join(10)
        found = [fields for _, fields in log.events("full")]
        print("  %d taken by %s; %s" % (replies.count("240"), by, found), flush=True)
        assert len(found) == 1 and len(log.events()) == 1, log.lines
        used, every = (int(it) for it in found[0][by].split("/"))
        assert every == {"inodes": 64, "blocks": 4096}[by] and 10 * used >= 9 * every > 10 * (used - 16), found


def a_volume_that_was_nearly_full_is_logged_at_the_start(volume):
    """Nobody posts to it. It is small: posts are refused before nine tenths of its blocks are used."""
    small = volume.another("small", blocks=1024, inodes=256)
    small.make_group()
    with small.serve(words=["--quiet"]) as server, server.call() as caller:
        log = Log(server.process.stderr)
        replies = [caller.post(article(number, body="x" * 40000))[:3] for number in range(100)]
        assert replies[-1] == "441", replies
        assert_full_once(log, server)
    with small.serve(words=["--quiet"]) as server:
        log = Log(server.process.stderr)
        log.wait("full", 1)
        with server.call() as caller:
            assert caller.post(article(1000))[:3] == "441"
        assert_full_once(log, server)


def assert_full_once(log, server):
    """The server's log says it, and nothing else, with fewer than 256 blocks free and less than nine tenths of them used."""
    assert server.order("stop") == "stopped"
    assert server.process.wait(10) == 0
    log.reading.join(10)
    assert [name for name, _ in log.events()] == ["full"], log.lines
    used, every = (int(it) for it in log.events()[0][1]["blocks"].split("/"))
    assert every - used < 256 and 10 * used < 9 * every, log.lines


def what_comes_once_finds_room_in_a_full_log(volume):
    """The volume fills up and its device fails while nobody reads the log, and there are more lines than it keeps."""
    small = volume.another("small", blocks=1024, inodes=128)
    small.make_group()
    with small.serve(words=ALL_FROM_ONE, log=subprocess.PIPE) as server:
        fcntl.fcntl(server.process.stderr.fileno(), fcntl.F_SETPIPE_SZ, 4096)
        for _ in range(LINES_KEPT + 200):
            call_and_quit(server.port)
        with server.call() as caller:
            assert {caller.post(article(number)) for number in range(117)} == {"240 Article received"}
            server.have_writes_fail()
            caller.send(b"POST\r\n" + article(117))
            # after a fault the server waits for another caller
            wait_until(lambda: is_told_of_the_end(server.port))
        log = Log(server.process.stderr)
        assert server.process.wait(20) == 1
        log.reading.join(10)
    assert log.events("lost"), len(log.lines)
    assert len(log.events("full")) == 1 and len(log.events("fault")) == 1, log.events("full") + log.events("fault")


def is_told_of_the_end(port):
    """Whether a caller is told that the service ends, or finds nobody who listens."""
    try:
        with Caller(port) as caller:
            return caller.greeting == SERVICE_ENDS
    except OSError:
        return True


def a_quiet_log_has_no_ends(volume):
    volume.make_group()
    with volume.serve(words=["--quiet", *ALL_FROM_ONE]) as server:
        log = Log(server.process.stderr)
        for number in range(20):
            with server.call() as caller:
                assert caller.post(article(number)) == "240 Article received"
                assert caller.ask("QUIT") == "205 Bye"
        callers = [server.greet(10) for _ in range(64)]
        with Caller(server.port) as late:
            assert late.greeting == SERVICE_ENDS
        for caller in callers:
            caller.close()
        log.wait("refused", 1)
        assert server.order("stop") == "stopped"
        assert server.process.wait(10) == 0
        log.reading.join(10)
        assert {name for name, _ in log.events()} == {"refused"}, log.lines
        assert not any(log.events(name) for name in OF_SESSIONS), log.lines


def a_log_that_nobody_reads_holds_nobody(volume):
    """Short sessions go on, and the operator is answered. What found no room is counted: each session has a line or is one of these."""
    volume.make_group()
    with volume.serve(words=ALL_FROM_ONE, log=subprocess.PIPE) as server:
        left, refused, lock = [SHORT_SESSIONS], [0], threading.Lock()

        def call():
            while True:
                with lock:
                    if not left[0]:
                        return
                    left[0] -= 1
                found_no_seat = call_and_quit(server.port)
                with lock:
                    refused[0] += found_no_seat

        failures = []

        def run():
            try:
                call()
            except BaseException as failure:
                failures.append(failure)

        threads = [threading.Thread(target=run, daemon=True) for _ in range(CALLERS_AT_ONCE)]
        start = time.monotonic()
        for thread in threads:
            thread.start()
        for thread in threads:
            thread.join()
        assert not failures, failures[0]
        print("  %d sessions in %.1f s" % (SHORT_SESSIONS, time.monotonic() - start), flush=True)
        with server.call() as caller:
            assert caller.post(article(1)) == "240 Article received"
        assert server.order("group x.b y 1000000000 test") == "3"
        log = Log(server.process.stderr)
        # that of the post is one of them
        lines = LINES_OF_A_SESSION * (SHORT_SESSIONS + 1) + 1 + refused[0]
        wait_until(lambda: told(log) >= lines, 20)
        with server.call() as caller:
            assert caller.ask("QUIT") == "205 Bye"
        wait_until(lambda: told(log) == lines + LINES_OF_A_SESSION, 20)
        assert log.events("lost"), len(log.lines)
        print("  %d lines, %s lost" % (len(log.events("end")), [fields["lines"] for _, fields in log.events("lost")]), flush=True)
        sessions = [int(fields["session"]) for _, fields in log.events("end")]
        assert len(set(sessions)) == len(sessions)


def a_line_that_cannot_be_written_is_counted(volume):
    """Standard error takes no line while it is full, and none is waited for."""
    volume.make_group()
    ends, faults = os.pipe()
    fcntl.fcntl(faults, fcntl.F_SETPIPE_SZ, 4096)
    os.set_blocking(faults, False)
    port = free_port()
    with open(ends, "rb") as stream:
        words = [volume.program, "serve", volume.path, "--port", str(port), *ALL_FROM_ONE]
        with subprocess.Popen(words, stdin=subprocess.PIPE, stdout=subprocess.PIPE, stderr=faults, preexec_fn=end_with_parent) as process:
            os.close(faults)
            try:
                assert process.stdout.readline().startswith(b"listening ")
                lines = sum(LINES_OF_A_SESSION + call_and_quit(port) for _ in range(200))
                log = Log(stream)
                wait_until(lambda: log.events("end"))
                # the next line says how many were lost
                lines += LINES_OF_A_SESSION + call_and_quit(port)
                wait_until(lambda: told(log) == lines)
                assert log.events("lost"), log.lines
                print("  %d lines, %s lost" % (len(log.events("end")), [it["lines"] for _, it in log.events("lost")]), flush=True)
            finally:
                process.kill()
        log.reading.join(10)


@contextlib.contextmanager
def logging_to(volume, faults, *words):
    """The port of a server whose standard error is this descriptor, which is closed here."""
    port = free_port()
    words = [volume.program, "serve", volume.path, "--port", str(port), *ALL_FROM_ONE, *words]
    with subprocess.Popen(words, stdin=subprocess.PIPE, stdout=subprocess.PIPE, stderr=faults, preexec_fn=end_with_parent) as process:
        os.close(faults)
        try:
            assert process.stdout.readline().startswith(b"listening ")
            yield port
        finally:
            process.kill()


def what_comes_once_stays_until_it_is_written(volume):
    """Standard error takes nothing while it is full. There is no other line once there is room, or there is one."""
    for name, words in (("quiet", ["--quiet"]), ("all", [])):
        small = volume.another(name, blocks=1024, inodes=256)
        small.make_group()
        ends, faults = os.pipe()
        fcntl.fcntl(faults, fcntl.F_SETPIPE_SZ, 4096)
        os.set_blocking(faults, False)
        # what others have written there
        os.write(faults, b"newsd: %s\n" % (b"x" * 4088))
        with open(ends, "rb") as stream, logging_to(small, faults, *words) as port:
            fill_volume(port)
            # nothing of that wakes the thread that writes any more
            time.sleep(SECONDS_AT_REST)
            log = Log(stream)
            wait_until(lambda: log.lines)
            # the line that others had written isn't one of this log
            del log.lines[0]
            if not words:
                call_and_quit(port)
            assert len(log.wait("full", 1)) == 1, log.lines
        log.reading.join(10)
        assert len(log.events("full")) == 1, log.lines


def a_full_disk_keeps_what_comes_once(volume):
    """The log is a file of a full file system. Once there is room, it has the line, and says how many others were lost."""
    folder = os.path.join(os.path.dirname(volume.path), "disk")
    os.mkdir(folder)
    if subprocess.run(["mount", "-t", "tmpfs", "-o", "size=64k", "tmpfs", folder], capture_output=True).returncode != 0:
        raise Skipped("no file system can be mounted")
    small = volume.another("small", blocks=1024, inodes=256)
    small.make_group()
    path, filling = os.path.join(folder, "log"), os.path.join(folder, "filling")
    try:
        faults = os.open(path, os.O_WRONLY | os.O_CREAT | os.O_APPEND)
        with logging_to(small, faults) as port:
            fill(filling)
            taken = fill_volume(port)
            assert octets(path) == b"", octets(path)
            os.remove(filling)
            call_and_quit(port)
            wait_until(lambda: b" event=full " in octets(path) and octets(path).count(b" event=end ") > 0, 20)
            lines = octets(path).decode().splitlines()
        assert len([line for line in lines if " event=full " in line]) == 1, lines
        assert all(LINE.fullmatch(line) for line in lines), lines
        assert sum(int(line.rsplit("=", 1)[1]) for line in lines if " event=lost " in line) >= taken, lines
    finally:
        subprocess.run(["umount", "--lazy", folder], check=True)


def fill_volume(port):
    """Posts long articles until one finds no room, and says how many were taken."""
    with Caller(port) as caller:
        taken = next(number for number in range(100) if caller.post(article(number, body="x" * 40000))[:3] != "240")
        assert caller.ask("QUIT") == "205 Bye"
    return taken


def fill(path):
    """Makes a file that leaves no room for another octet."""
    with open(path, "wb", buffering=0) as file:
        try:
            while True:
                file.write(bytes(4096))
        except OSError as refused:
            assert refused.errno == errno.ENOSPC, refused


def lines_of_posts_are_written_together(volume):
    """Standard error keeps apart what each write wrote. Posts that one sync makes durable have their lines in one write."""
    volume.make_group()
    ours, theirs = socket.socketpair(socket.AF_UNIX, socket.SOCK_SEQPACKET)
    writes, posts, each = [], 16, 40
    with volume.serve(words=ALL_FROM_ONE, log=theirs) as server:
        theirs.close()
        reading = threading.Thread(target=lambda: writes.extend(iter(lambda: ours.recv(1 << 20), b"")), daemon=True)
        reading.start()

        def post(own):
            with server.call() as caller:
                caller.send(b"".join(b"POST\r\n" + article(own * 1000 + number) for number in range(each)))
                assert [caller.line()[:3] for _ in range(2 * each)] == ["340", "240"] * each

        threads = [threading.Thread(target=post, args=(own,)) for own in range(posts)]
        for thread in threads:
            thread.start()
        for thread in threads:
            thread.join(60)
        assert server.order("stop") == "stopped"
        assert server.process.wait(10) == 0
    reading.join(10)
    ours.close()
    lines = b"".join(writes).decode().splitlines()
    assert all(written.endswith(b"\n") for written in writes), writes
    assert len([line for line in lines if " event=post " in line]) == posts * each, len(lines)
    print("  %d lines in %d writes" % (len(lines), len(writes)), flush=True)
    assert 2 * len(writes) <= len(lines), (len(writes), len(lines))


def call_and_quit(port):
    """A short session, and how many calls found no seat before it. Seats are their threads', and on a busy machine many threads may
    still be at the end of a session that is over for its caller."""
    for refused in itertools.count():
        with Caller(port) as caller:
            if caller.greeting == GREETING:
                assert caller.ask("QUIT") == "205 Bye"
                return refused
            assert caller.greeting == SERVICE_ENDS, caller.greeting
        time.sleep(0.01)


def told(log):
    """The beginnings, posts and ends of sessions that have a line, the refused callers that are counted by one, and the lines without
    room."""
    counted = sum(int(fields["times"]) for _, fields in log.events("refused"))
    own = sum(len(log.events(name)) for name in ("begin", "post", "end"))
    return own + counted + sum(int(fields["lines"]) for _, fields in log.events("lost"))


def a_server_whose_log_nobody_reads_stops(volume):
    volume.make_group()
    with volume.serve(log=subprocess.PIPE) as server:
        for _ in range(2000):
            with server.call() as caller:
                assert caller.ask("QUIT") == "205 Bye"
        start = time.monotonic()
        assert server.order("stop") == "stopped"
        assert server.process.wait(10) == 0
        print("  stopped in %.1f s" % (time.monotonic() - start), flush=True)


def no_line_has_what_a_caller_sent(volume):
    """Whatever octets come, a line has its form and none of them but the message-ids of articles that were taken."""
    volume.make_group()
    secret = b"s3cr3t"
    with volume.serve() as server:
        log = Log(server.process.stderr)
        sendings = [
            secret + b"\r\n", secret + b"=x event=fault\r\n", b"\x00\xff\x1b[31m" + secret + b"\r\n", secret + b"\ntime=x event=fault\n\r\n",
            b"\"" + secret + b"\"\r\n", b"GROUP " + secret + b"\r\n", b"ARTICLE <" + secret + b"@x.example>\r\n", secret * 200 + b"\r\n",
            b"\r\n", b"\r\r\n\n" + secret + b"\r\n", b"IHAVE <" + secret + b"@x.example>\r\n" + article(secret.decode(), subject=secret.decode()),
            b"POST\r\n" + article(1, subject=secret.decode(), body=secret.decode()), b"POST\r\n" + article(1, body=secret.decode()),
            b"POST\r\n" + article(secret.decode()).replace(b"x.a", secret), bytes(range(256)) + b"\r\n", "\u2028\u0085".encode() + b"\r\n",
        ]
        for sending in sendings:
            with server.call() as caller:
                caller.send(sending)
                caller.socket.shutdown(socket.SHUT_WR)
                caller.file.read()
        ends = log.wait("end", len(sendings))
        assert server.order(secret.decode() + "\x1b[31m") == "E14 Bad"
        assert server.order("stop") == "stopped"
        assert server.process.wait(10) == 0
        log.reading.join(10)
        assert len(log.events()) == len(ends) == len(sendings), log.lines
        assert [int(fields["in"]) for _, fields in log.events("end")] == [len(it) for it in sendings], log.lines
        assert all(secret.decode() not in line and line.isascii() and line[:-1].isprintable() for line in log.lines), log.lines


def a_short_opening_is_not_logged(volume):
    volume.make_group()
    start = time.monotonic()
    with volume.serve() as server:
        took = time.monotonic() - start
        log = Log(server.process.stderr)
        assert server.order("stop") == "stopped"
        assert server.process.wait(10) == 0
        log.reading.join(10)
    assert took >= SECONDS_UNTOLD or log.lines == [], (took, log.lines)


def readings(lines):
    """The lines of an opening of 32 MiB that say how much was read, and those that say that the files are checked, which come last."""
    steps = [Log.event(line) for line in lines]
    reads = [int(fields["read"]) for _, fields in steps if "read" in fields]
    expected = [{"read": str(it), "of": "32", "unit": "MiB"} for it in reads]
    checks = len(steps) - len(reads)
    assert steps == [("opening", it) for it in expected + checks * [{"step": "checking"}]], lines
    return reads, checks


def a_long_opening_is_logged(volume):
    """Slow reads have it take longer than eight seconds. In the damaged volume the search for the damage makes some thousand reads more,
    once the opening has read all."""
    assert os.path.getsize(volume.path) == BLOCK * BEFORE_HOMES + (32 << 20)
    with tempfile.TemporaryDirectory(prefix="newsd-slowing-") as folder:
        library = compile_library(folder, SLOWING)
        if library is None:
            raise Skipped("there is no compiler for C")
        slowly = ["env", "LD_PRELOAD=" + library]
        with volume.serve(by=slowly, words=["--quiet"]) as server:
            log = Log(server.process.stderr)
            assert server.order("stop") == "stopped"
            assert server.process.wait(10) == 0
            log.reading.join(10)
        reads, _ = readings(log.lines)
        assert len(reads) >= 3 and reads == sorted(reads) and reads[0] < reads[-1], reads
        with open(volume.path, "r+b") as file:
            file.seek(BLOCK * BEFORE_HOMES + 8000 // 8)
            file.write(b"\1")
        words = [*slowly, volume.program, "serve", volume.path, "--port", str(free_port())]
        done = subprocess.run(words, stdin=subprocess.DEVNULL, capture_output=True, timeout=120)
    *lines, last = done.stderr.decode().splitlines(keepends=True)
    assert (done.returncode, done.stdout) == (1, b""), done
    assert last == "newsd: E5 Damaged: the bitmap marks block 8000, which no file owns\n", done
    again, checks = readings(lines)
    assert len(again) >= 3 and again == sorted(again) and checks >= 3, lines
    print("  MiB read: %s; then: %s, and %d lines of a check" % (reads, again, checks), flush=True)


def who_takes_nothing_is_logged_as_stalled(volume):
    """It takes some three minutes."""
    volume.make_group()
    with volume.serve() as server:
        log = Log(server.process.stderr)
        with server.call() as caller:
            for number in range(4):
                assert caller.post(article(number, body="\r\n".join(["x" * 70] * 2800))) == "240 Article received"
            assert caller.ask("QUIT") == "205 Bye"
        deaf = Caller(server.port, receive_octets=4096)
        deaf.send(b"ARTICLE <1@a.example>\r\n" * 40)
        wait_until(lambda: len(log.events("end")) == 2, SECONDS_OF_A_STALL)
        assert log.events("end")[1][1]["why"] == "stalled", log.lines
        deaf.close()


TESTS = [
    each_end_of_a_session_is_logged,
    each_refused_post_has_its_cause,
    a_refusal_of_the_volume_has_its_cause,
    each_post_is_logged_once_it_is_durable,
    each_refused_caller_is_logged,
    refused_callers_are_summed_up,
    a_caller_from_elsewhere_that_is_refused_is_logged,
    a_fault_is_logged,
    a_nearly_full_volume_is_logged_once,
    a_volume_that_was_nearly_full_is_logged_at_the_start,
    what_comes_once_finds_room_in_a_full_log,
    what_comes_once_stays_until_it_is_written,
    a_full_disk_keeps_what_comes_once,
    lines_of_posts_are_written_together,
    a_quiet_log_has_no_ends,
    a_log_that_nobody_reads_holds_nobody,
    a_line_that_cannot_be_written_is_counted,
    a_server_whose_log_nobody_reads_stops,
    no_line_has_what_a_caller_sent,
    a_short_opening_is_not_logged,
    a_long_opening_is_logged,
]
LONG_ONES = [who_takes_nothing_is_logged_as_stalled]


if __name__ == "__main__":
    sys.exit(main(TESTS, LONG_ONES))
