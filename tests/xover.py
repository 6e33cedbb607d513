#!/usr/bin/env python3
"""System tests of contrib/xover, the relay for readers that know XOVER alone: recorded dialogues, and readers of newsd. xover.py NEWSD [NAME..]"""
import contextlib
import importlib.machinery
import importlib.util
import os
import re
import signal
import socket
import subprocess
import sys
import threading

from newsd import ALL_FROM_ONE, GREETING, GROUP, HOST, SECONDS, Caller, article, end_with_parent, free_port, long_article, message_id, wait_until
from operating import TOP
from playing import main

RELAY = os.path.join(TOP, "contrib", "xover")
LOOPBACK = "127.0.0.1"
# what a relay may have beside what it has without a caller
MOST_OF_A_SESSION = 1 << 20

# C is a line of the caller's, and after => what the server is given in its place. S is a line of the server's, and X one that is left out
DIALOGUES = {
    "what nn says to show a group": """
S 200 news.example ready, posting permitted
C MODE READER
S 200 news.example ready, posting permitted
C LIST
S 215 Information follows
S x.test 2 1 y
S .
C LIST active.times
S 215 Information follows
S x.test 1000000000 news.example
S .
C GROUP x.test
S 211 2 1 2 x.test
C GROUP x.test
S 211 2 1 2 x.test
C XOVER 1-2 => OVER 1-2
S 224 Overview follows
S 1\tNumber 1\tAnn <a@example.org>\tSat, 28 Nov 2026 05:10:55 +0000\t<1@t.example>\t\t174\t1
S 2\tNumber 2\tAnn <a@example.org>\tSat, 28 Nov 2026 05:10:55 +0000\t<2@t.example>\t\t174\t1
S .
C LIST NEWSGROUPS
S 215 Information follows
S x.test A first group
S .
C QUIT
S 205 Bye
""",
    "what slrn says to show a group and a post of it": """
S 200 news.example ready, posting permitted
C MODE READER
S 200 news.example ready, posting permitted
C XOVER => OVER
S 412 No group selected
C XHDR Path
S 500 Unknown command
C LIST OVERVIEW.FMT
S 215 Information follows
S Subject:
S :bytes
S :lines
S .
C GROUP x.test
S 211 1 1 1 x.test
C XOVER 1-1 => OVER 1-1
S 224 Overview follows
S 1\tNumber 1\tAnn <a@example.org>\tSat, 28 Nov 2026 05:10:55 +0000\t<1@t.example>\t\t174\t1
S .
C ARTICLE 1
S 220 1 <1@t.example>
S Subject: Number 1
S
S XOVER of 1
S .
""",
    "a range": """
S 200 news.example ready, posting permitted
C GROUP x.a
S 211 3 1 3 x.a
C XOVER 1-3 => OVER 1-3
S 224 Overview follows
S 1\tone\ta@example.org
S 3\tthree\ta@example.org
S .
C XOVER => OVER
S 224 Overview follows
S 1\tone\ta@example.org
S .
C QUIT
S 205 Bye
""",
    "small letters, a tab, and words that aren't the command": """
S 200 ready
C xover 1 => over 1
S 423 No such article number
C Xover\t1 => over\t1
S 423 No such article number
C  XOVER 1
S 500 Unknown command
C XOVERVIEW
S 500 Unknown command
C OVER 1
S 423 No such article number
C DATE XOVER 1
S 501 Syntax error
C\x20
S 500 Unknown command
""",
    "a post": """
S 200 ready
C POST
S 340 Send article
C From: a@example.org
C Subject: XOVER
C
C XOVER 1-3
C ..
C .XOVER 1
C XOVER
C .
S 240 Article received
C XOVER 1 => OVER 1
S 423 No such article number
""",
    "a post of nothing": """
S 200 ready
C post
S 340 Send article
C .
S 441 Article not accepted
C XOVER 1 => OVER 1
S 412 No group selected
""",
    "a post that isn't wanted": """
S 200 ready
C POST
S 440 Posting not permitted
C XOVER 1 => OVER 1
S 412 No group selected
C POST now
S 501 Syntax error
C XOVER 1 => OVER 1
S 412 No group selected
""",
    "a transfer": """
S 200 ready
C IHAVE <1@a.example>
S 435 Article not wanted
C IHAVE <2@a.example>
S 335 Send article
C Path: p
C
C XOVER 1
C .
S 235 Article transferred
C XOVER 1 => OVER 1
S 412 No group selected
""",
    "a code of a reply within a block": """
S 200 ready
C ARTICLE 1
S 220 1 <1@a.example>
S 340 Send article
S ..
S 335 Send article
S .
C XOVER 2 => OVER 2
S 423 No such article number
C POST
S 340 Send article
C XOVER 1
C .
S 441 Article not accepted
""",
    "numbers of a group, and a group": """
S 200 ready
C LISTGROUP x.a
S 211 3 1 3 x.a
S 1
S .
C GROUP x.a
S 211 3 1 3 x.a
C LISTGROUP x.b
S 411 No such group
C XOVER 1 => OVER 1
S 423 No such article number
C POST
S 340 Send article
C XOVER
C .
S 240 Article received
""",
    "blocks of every kind": """
S 200 ready
C HELP
S 100 Help follows
S XOVER
S .
C CAPABILITIES
S 101 Capabilities follow
S VERSION 2
S .
C LIST
S 215 Information follows
S .
C HEAD 1
S 221 1 <1@a.example>
S Subject: one
S .
C BODY 1
S 222 1 <1@a.example>
S .
C NEWNEWS * 20260101 000000
S 230 New articles follow
S .
C NEWGROUPS 20260101 000000
S 231 New groups follow
S .
C XOVER 1 => OVER 1
S 224 Overview follows
S .
""",
    "a line that is too long": """
S 200 ready
C XOVER LONG
S 501 Syntax error
C POST LONG
S 501 Syntax error
C XOVER BY1
S 501 Syntax error
C XOVER 1 => OVER 1
S 412 No group selected
""".replace("LONG", "1" * 1000).replace("BY1", "1" * 505),
    "a server that ends": """
S 200 ready
C XOVER 1 => OVER 1
S 400 Service ends
""",
}


# what a line of the server's becomes where the old names are wanted
OLD_NAMES = """
S 200 ready
C LIST OVERVIEW.FMT
S 215 Information follows
S Subject:
S :bytes => Bytes:
S :lines => Lines:
S :byte
S :lines:
S x:bytes
S Xref:full of a long line
S :lines => Lines:
S .
C list\tOVERVIEW.FMT 
S 215 Information follows
S :bytes => Bytes:
S .
C LIST ACTIVE
S 215 Information follows
S :bytes
S .
C LIST OVERVIEW.FMT
S 503 No such list
C DATE
S 111 :bytes
"""
# what is left of articles without Xref
WITHOUT_XREF = """
S 200 ready
C ARTICLE 1
S 220 1 <1@a.example>
S Path: p
X Xref: news.example x.a:1 x.b:1
S Subject: one
X XREF: news.example x.b:2
X  x.b:3
X \tx.b:4
S X-Xref: x.b:5
S  Xref: a line that goes on
X xref:
X  x.b:6
S Xre
S X
S
S Xref: of the text
S  x
S
S ..
S .
C HEAD 1
S 221 1 <1@a.example>
X Xref: x.b:7
S From: a@example.org
X xReF:x.b:8
S .
C HEAD 2
S 423 No such article number
C BODY 1
S 222 1 <1@a.example>
S Xref: of the text
S .
C HEAD 3
S 221 3 <3@a.example>
S .
C LIST
S 215 Information follows
S Xref: 1 1 y
S .
"""
# after it the replies are counted rightly: what begins an article is none of the commands before it
ENDING = """
C POST
S 340 Send article
C XOVER 9
C .
S 240 Article received
C XOVER 9 => OVER 9
S 423 No such article number
"""[1:]


def relay_module():
    """The relay's own parts."""
    loader = importlib.machinery.SourceFileLoader("xover", RELAY)
    module = importlib.util.module_from_spec(importlib.util.spec_from_loader("xover", loader))
    sys.dont_write_bytecode = True
    loader.exec_module(module)
    return module


def lines_of(text):
    """The lines of a dialogue, and of a post behind it: whether it is the server's, the octets that are said, those that are to be handed on."""
    for row in (text[1:] + ENDING * ("S 400" not in text)).splitlines():
        is_servers, (said, _, given) = not row.startswith("C"), row[2:].partition(" => ")
        yield is_servers, (said + "\r\n").encode(), b"" if row.startswith("X") else ((given or said) + "\r\n").encode()


def pieces(octets, size):
    return [octets[at:at + size] for at in range(0, len(octets), size)]


def dialogues_are_followed(_):
    """Each row line by line, in pieces of each size, and with all that the caller says at once."""
    module = relay_module()
    for name, text in DIALOGUES.items():
        for size in (1, 2, 3, 5, 700, 5000):
            assert played(module.Dialogue(), text, size, False) == wanted(text), (name, size)
            assert played(module.Dialogue(), text, size, True) == wanted(text), (name, size, "at once")


def old_names_are_told_where_they_are_wanted(volume):
    """And the new ones elsewhere."""
    module = relay_module()
    new = OLD_NAMES.replace(" => Bytes:", "").replace(" => Lines:", "")
    for size in (1, 2, 3, 4, 5, 6, 7, 8, 9, 700):
        for is_at_once in (False, True):
            assert played(module.Dialogue(has_old_names=True), OLD_NAMES, size, is_at_once) == wanted(OLD_NAMES), size
            assert played(module.Dialogue(), new, size, is_at_once) == wanted(new), size
    with volume.serve() as server, Relaying(server.port, "--old-names") as relay, relay.call() as caller:
        caller.send(b"LIST OVERVIEW.FMT\r\nDATE\r\n")
        assert [caller.line() for _ in range(9)][-3:] == ["Bytes:", "Lines:", "."] and caller.line().startswith("111 ")


def xref_is_left_out_where_that_is_wanted(volume):
    """With the lines that go on with it, of articles and headers alone, and nowhere else. A forged one that was posted reaches nobody."""
    module = relay_module()
    there = WITHOUT_XREF.replace("\nX ", "\nS ")
    for size in (1, 2, 3, 4, 5, 6, 7, 8, 9, 700):
        for is_at_once in (False, True):
            dialogue = module.Dialogue(has_old_names=True, is_without_xref=True)
            assert played(dialogue, WITHOUT_XREF, size, is_at_once) == wanted(WITHOUT_XREF), size
            assert played(module.Dialogue(), there, size, is_at_once) == wanted(there), size
    volume.make_group()
    forged = article(1).replace(b"Subject:", b"Xref: %s x.a:1\r\n x.b:1\r\nSubject:" % HOST.encode())
    with volume.serve() as server, Relaying(server.port, "--without-xref") as relay, relay.call() as caller:
        assert caller.post(forged) == "240 Article received"
        with server.call() as beside:
            assert beside.ask("ARTICLE " + message_id(1)) == "220 0 " + message_id(1) and beside.read_whole(forged)
        assert caller.ask("ARTICLE " + message_id(1)) == "220 0 " + message_id(1) and caller.read_whole(article(1))
        header = article(1).split(b"\r\n\r\n")[0] + b"\r\n.\r\n"
        assert caller.ask("HEAD " + message_id(1)) == "221 0 " + message_id(1) and caller.read_whole(header)
        assert caller.ask("DATE").startswith("111 ")


def wanted(text):
    """What the server is given, and what the caller is."""
    return tuple(b"".join(given for is_servers, _, given in lines_of(text) if is_servers == to_caller) for to_caller in (False, True))


def played(dialogue, text, size, is_at_once):
    """What is handed on to the server and to the caller. What the caller says at once waits where the relay doesn't take it."""
    waiting, handed_on, told, rows = b"", b"", b"", list(lines_of(text))
    if is_at_once:
        rows = [row for row in rows if not row[0]] + [row for row in rows if row[0]]
    for is_servers, said, _ in rows:
        for piece in pieces(said, size):
            if is_servers:
                told += dialogue.said(piece)
            else:
                waiting += piece
            given, taken = dialogue.asked(waiting)
            handed_on, waiting = handed_on + given, waiting[taken:]
    return handed_on + waiting, told


class Relaying:
    """A relay that runs, in front of a server on this port."""

    def __init__(self, port, *words):
        self.port = free_port()
        words = [sys.executable, "-B", RELAY, "--listen", "%s:%d" % (LOOPBACK, self.port), "--to", "%s:%d" % (LOOPBACK, port), *words]
        self.process = subprocess.Popen(words, stdin=subprocess.DEVNULL, stderr=subprocess.PIPE, preexec_fn=end_with_parent)

    def __enter__(self):
        assert self.process.stderr.readline().decode() == "xover: listening %s:%d\n" % (LOOPBACK, self.port)
        return self

    def __exit__(self, *_):
        self.process.kill()
        _, said = self.process.communicate()
        assert said == b"", said

    def call(self):
        return Caller(self.port)

    def memory(self):
        with open("/proc/%d/status" % self.process.pid) as status:
            return 1024 * int(re.search(r"^VmRSS:\s+(\d+)", status.read(), re.MULTILINE)[1])


class Peer:
    """A server that a test speaks for."""

    def __init__(self):
        self.listener = socket.create_server((LOOPBACK, 0))
        self.listener.settimeout(SECONDS)
        self.port = self.listener.getsockname()[1]

    def __enter__(self):
        return self

    def __exit__(self, *_):
        self.listener.close()

    def accept(self):
        connection = self.listener.accept()[0]
        connection.settimeout(SECONDS)
        return connection


def receive(connection, count):
    """The next octets, as many as these where they come."""
    got = b""
    while len(got) < count:
        piece = connection.recv(count - len(got))
        if not piece:
            break
        got += piece
    return got


def dialogues_are_relayed(_):
    """Each row over sockets. Both ends see that the other one has ended."""
    with Peer() as peer, Relaying(peer.port) as relay:
        for name, text in DIALOGUES.items():
            with socket.create_connection((LOOPBACK, relay.port), SECONDS) as caller, peer.accept() as server:
                for is_servers, said, given in lines_of(text):
                    (server if is_servers else caller).sendall(said)
                    got = receive(caller if is_servers else server, len(given))
                    assert got == given, (name, got, given)
                for ends, other in ((caller, server), (server, caller)) if len(name) % 2 else ((server, caller), (caller, server)):
                    ends.shutdown(socket.SHUT_WR)
                    assert other.recv(1) == b"", name


def readers_of_newsd(volume):
    """XOVER gives what OVER gives. What was posted and sent comes back octet by octet."""
    volume.make_group()
    odd = article(2, body="XOVER 1\r\n..\r\nPOST\r\nXOVER")
    with volume.serve() as server, Relaying(server.port) as relay:
        with relay.call() as caller, server.call() as beside:
            assert caller.greeting == GREETING
            assert caller.post(article(1)) == "240 Article received"
            caller.send(b"IHAVE %s\r\n" % message_id(2).encode() + odd + b"XOVER 1-2\r\n" + b"GROUP %s\r\nXOVER 1-9\r\n" % GROUP.encode())
            assert [caller.line() for _ in range(5)] == ["335 Send article", "235 Article transferred", "412 No group selected",
                                                         "211 2 1 2 " + GROUP, "224 Overview follows"]
            assert beside.ask("XOVER 1-9") == "500 Unknown command"
            beside.send(b"GROUP %s\r\nOVER 1-9\r\n" % GROUP.encode())
            assert [beside.line() for _ in range(2)] == ["211 2 1 2 " + GROUP, "224 Overview follows"]
            over = [beside.line() for _ in range(3)]
            assert over[-1] == "." and [caller.line() for _ in range(3)] == over, over
            large = long_article(3, 250000)
            assert caller.post(large) == "240 Article received"
            for one, text in ((2, odd), (3, large)):
                caller.send(b"ARTICLE %d\r\n" % one)
                assert caller.line() == "220 %d %s" % (one, message_id(one))
                assert caller.read_whole(text), one
            assert caller.ask("QUIT") == "205 Bye" and caller.has_ended()
        # a caller that says nothing more still gets its replies
        with relay.call() as caller:
            caller.send(b"GROUP %s\r\nARTICLE 3\r\n" % GROUP.encode())
            caller.socket.shutdown(socket.SHUT_WR)
            assert caller.line() == "211 3 1 3 " + GROUP and caller.line() == "220 3 " + message_id(3)
            assert caller.read_whole(large) and caller.has_ended()


def many_callers_are_relayed(volume):
    """Those that newsd doesn't let in are told so by newsd."""
    volume.make_group()
    with volume.serve(words=ALL_FROM_ONE) as server, Relaying(server.port, "--most", "70") as relay, contextlib.ExitStack() as stack:
        callers = [stack.enter_context(relay.call()) for _ in range(64)]
        assert {it.greeting for it in callers} == {GREETING}
        for caller in callers:
            caller.send(b"GROUP %s\r\nXOVER 1\r\n" % GROUP.encode())
        for caller in callers:
            assert [caller.line(), caller.line()] == ["211 0 1 0 " + GROUP, "423 No such article number"]
        with relay.call() as one_more:
            assert one_more.greeting == "400 Service ends" and one_more.has_ended()


def what_cannot_be_served_is_told(_):
    with Relaying(free_port()) as relay, relay.call() as caller:
        assert caller.greeting == "400 No server" and caller.has_ended()
    with Peer() as peer, Relaying(peer.port, "--most", "1") as relay:
        with socket.create_connection((LOOPBACK, relay.port)), peer.accept() as server:
            with relay.call() as one_more:
                assert one_more.greeting == "400 Too many callers" and one_more.has_ended()
            server.sendall(b"200 ready\r\n")
        # the first one has ended
        wait_until(lambda: is_let_in(relay, peer))


def is_let_in(relay, peer):
    with socket.create_connection((LOOPBACK, relay.port), SECONDS) as caller:
        caller.settimeout(0.2)
        with contextlib.suppress(socket.timeout):
            return not caller.recv(100).startswith(b"400")
        peer.accept().close()
        return True


def a_line_tells_the_callers_address(_):
    with Peer() as peer:
        with Relaying(peer.port, "--proxy") as relay, socket.create_connection((LOOPBACK, relay.port)) as caller, peer.accept() as server:
            line = ("PROXY TCP4 %s %s %d %d\r\n" % (LOOPBACK, LOOPBACK, caller.getsockname()[1], relay.port)).encode()
            caller.sendall(b"XOVER 1\r\n")
            assert receive(server, len(line) + 8) == line + b"OVER 1\r\n"
        # such a line of the caller's is no command: the reply to POST is the second that comes
        with Relaying(peer.port, "--proxied") as relay, socket.create_connection((LOOPBACK, relay.port)) as caller, peer.accept() as server:
            caller.sendall(b"PROXY TCP4 192.0.2.1 192.0.2.2 1 2\r\nPOST\r\nXOVER\r\n.\r\nXOVER\r\n")
            assert receive(server, 42) == b"PROXY TCP4 192.0.2.1 192.0.2.2 1 2\r\nPOST\r\n"
            server.sendall(b"200 ready\r\n340 Send article\r\n")
            assert receive(server, 16) == b"XOVER\r\n.\r\nOVER\r\n"


def newsd_knows_the_callers_behind_a_relay(volume):
    """By the line that the relay begins with, and by one that it hands on."""
    volume.make_group()
    by_proxy = free_port()
    with volume.serve(words=["--proxied", "%s:%d" % (LOOPBACK, by_proxy), "--allow", "192.0.2.0/24"]) as server:
        assert server.process.stdout.readline().decode() == "listening %s:%d\n" % (LOOPBACK, by_proxy)
        with Relaying(by_proxy, "--proxy") as relay, Caller(relay.port, source="127.0.0.9") as caller:
            peers = ["127.0.0.9:%d" % caller.socket.getsockname()[1], "192.0.2.1:1"]
            assert caller.post(article(1)) == "240 Article received" and caller.ask("QUIT") == "205 Bye"
        with Relaying(by_proxy, "--proxied") as relay:
            with Caller(relay.port, first=b"PROXY TCP4 192.0.2.1 192.0.2.2 1 2\r\n") as caller:
                assert caller.greeting == GREETING and caller.ask("GROUP " + GROUP) == "211 1 1 1 " + GROUP
                assert caller.ask("XOVER 1").startswith("224 ") and caller.line().startswith("1\t") and caller.line() == "."
                assert caller.ask("QUIT") == "205 Bye"
        assert [re.search(r" peer=(\S+) ", server.log())[1] for _ in peers] == peers


def memory_is_bounded(_):
    """Of a caller that takes nothing, of one that goes on asking, and of a server that answers nothing."""
    with Peer() as peer, Relaying(peer.port) as relay:
        with socket.create_connection((LOOPBACK, relay.port)) as caller, peer.accept() as server:
            server.sendall(b"200 ready\r\n")
            assert receive(caller, 11) == b"200 ready\r\n"
            before = relay.memory()
            server.settimeout(1)
            caller.settimeout(1)
            for end, said in ((server, b"x" * (1 << 16)), (caller, b"DATE\r\n" * 10000)):
                with contextlib.suppress(socket.timeout):
                    for _ in range(1000):
                        end.sendall(said)
                    raise AssertionError("it takes all")
            assert relay.memory() < before + MOST_OF_A_SESSION, (before, relay.memory())


def whoever_goes_on_sending_is_let_go(_):
    """After the server's last reply, which comes whole."""
    with Peer() as peer, Relaying(peer.port) as relay:
        with socket.create_connection((LOOPBACK, relay.port), SECONDS) as caller, peer.accept() as server:
            said = b"200 ready\r\n" + b"x" * 1000000 + b"\r\n"
            threading.Thread(target=lambda: (server.sendall(said), server.close()), daemon=True).start()
            assert receive(caller, len(said)) == said and caller.recv(1) == b""
            with contextlib.suppress(ConnectionError):
                for _ in range(SECONDS * 100):
                    caller.sendall(b"DATE\r\n")
                    signal.sigtimedwait([], 0.01)
                raise AssertionError("it isn't let go")


TESTS = [
    dialogues_are_followed,
    dialogues_are_relayed,
    old_names_are_told_where_they_are_wanted,
    xref_is_left_out_where_that_is_wanted,
    readers_of_newsd,
    many_callers_are_relayed,
    what_cannot_be_served_is_told,
    a_line_tells_the_callers_address,
    newsd_knows_the_callers_behind_a_relay,
    memory_is_bounded,
    whoever_goes_on_sending_is_let_go,
]


if __name__ == "__main__":
    sys.exit(main(TESTS))
