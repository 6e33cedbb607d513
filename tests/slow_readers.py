#!/usr/bin/env python3
"""System tests of callers that read slowly or send no more: each gets every reply. slow_readers.py NEWSD [NAME..]"""
import socket
import sys
import threading
import time

from logs import Log
from newsd import Caller, article, long_article, message_id, wait_until
from playing import main, side_by_side

LARGEST = 262144
SMALL_BUFFER = 8192
WINDOW = 60
LONG_WINDOW = 240
SECONDS_OF_A_STALL = 180
# the seconds that the first command may take, and any later message
FIRST = 30
SLOW = 600


def a_slow_reader_gets_all(volume):
    """Slow callers join before one that is served meanwhile, and after it. It takes a minute, in which nobody is busy."""
    volume.make_group()
    largest, long = long_article("largest", LARGEST), long_article("long", 250_000)
    assert len(largest) == LARGEST + len(b".\r\n")
    with volume.serve() as server, server.call() as first:
        for text in (largest, long):
            assert first.post(text) == "240 Article received"
        ends = threading.Event()

        def slow():
            caller = Caller(server.port, receive_octets=SMALL_BUFFER)
            return caller, lambda: read_one_at(caller, largest, 10_000)

        def pipelining(receive_octets):
            caller = Caller(server.port, receive_octets=receive_octets, seconds=2 * WINDOW)
            return caller, lambda: read_sixty_at(server, caller, long, 20_000, WINDOW)

        slow_ones = [slow(), pipelining(SMALL_BUFFER), pipelining(None)]
        other = server.call()
        slow_ones += [slow(), pipelining(SMALL_BUFFER), pipelining(None)]

        def read_all():
            try:
                side_by_side(*[read for _, read in slow_ones])
            finally:
                ends.set()

        side_by_side(read_all, lambda: ask_until(other, ends))
        for caller in (other, *[caller for caller, _ in slow_ones]):
            caller.close()


def who_takes_little_is_not_let_go(volume):
    """A server may let a caller go that takes nothing for three minutes (RFC 3977, 3.1). It may not let a slow one go for which the system
    reports nothing for as long: its buffer of what is sent may have room only once a third of it is free."""
    volume.make_group()
    long = long_article("long", 250_000)
    with volume.serve() as server:
        with server.call() as caller:
            assert caller.post(long) == "240 Article received"
        callers = [Caller(server.port, receive_octets, 2 * LONG_WINDOW) for receive_octets in (SMALL_BUFFER, None)]
        side_by_side(*[lambda caller=caller: read_sixty_at(server, caller, long, 2_000, LONG_WINDOW) for caller in callers])
        for caller in callers:
            caller.close()


def causes_of_ends(log):
    """Why sessions ended, however long ago."""
    return [line.rpartition(" why=")[2].strip() for line in list(log.lines) if " event=end " in line]


def who_takes_little_of_a_large_reply_is_let_go(volume):
    """Who holds one of the places for large replies has to take a hundred octets a second, judged by turns of three minutes. One that takes
    fewer is let go, and the log says why; one that takes more stays, and so does one that takes as few and holds none. What the system's
    buffers grow by counts in a turn, so it may be the second one. It takes four to seven minutes."""
    volume.make_group()
    with volume.serve() as server:
        log = Log(server.process.stderr)
        with server.call() as caller:
            for number in range(1_000):
                assert caller.post(article("%0200d" % number)) == "240 Article received"
            assert caller.post(long_article("long", 250_000)) == "240 Article received"
            assert caller.ask("QUIT") == "205 Bye"
        callers = [Caller(server.port, receive_octets, source="127.0.0.%d" % (20 + at)) for at, receive_octets in enumerate([SMALL_BUFFER] * 3)]
        for caller in callers[:2]:
            caller.send(b"NEWNEWS * 20000101 000000\r\n" * 30)
        callers[2].send(b"ARTICLE <long@a.example>\r\n" * 60)
        ends = threading.Event()

        def sip(caller, octets, pause):
            try:
                while not ends.wait(pause):
                    caller.socket.recv(octets)
            except ConnectionError:
                pass

        start = time.monotonic()
        threads = [threading.Thread(target=sip, args=it) for it in zip(callers, (360, 1_000, 360), (4, 4, 4))]
        for thread in threads:
            thread.start()
        wait_until(lambda: time.monotonic() > start + 2 * LONG_WINDOW or len(causes_of_ends(log)) > 1, 2 * LONG_WINDOW + 30)
        ends.set()
        for thread in threads:
            thread.join()
        assert causes_of_ends(log) == ["quit", "slow"], log.lines[-3:]
        assert time.monotonic() - start > SECONDS_OF_A_STALL
        assert [server.has_established(it) for it in callers] == [False, True, True]
        for caller in callers:
            caller.close()


def read_one_at(caller, text, rate):
    """Asks for an article, and reads it so fast."""
    start = time.monotonic()
    caller.send(b"ARTICLE <largest@a.example>\r\n")
    assert caller.line() == "220 0 <largest@a.example>"
    assert caller.read_whole(text, rate)
    seconds = time.monotonic() - start
    assert seconds > len(text) / rate / 2, seconds
    assert caller.ask("QUIT") == "205 Bye"


def read_sixty_at(server, caller, text, rate, seconds):
    """Asks for sixty articles, reads what it gets of them for a while, and is still there then."""
    whole = (b"220 0 <long@a.example>\r\n" + text) * 60
    caller.send(b"ARTICLE <long@a.example>\r\n" * 60)
    assert caller.read_whole(whole[:seconds * rate], rate)
    assert server.has_established(caller)


def ask_until(caller, ends):
    while not ends.wait(0.5):
        assert caller.ask("STAT <9@a.example>") == "430 No such article"


def a_half_closed_caller_gets_all(volume):
    """It has sent its last, in one piece, and joined before or after another who waits for replies that are as long."""
    volume.make_group()
    text = long_article("long", 250_000)
    reply = b"220 0 <long@a.example>\r\n" + text
    with volume.serve() as server:
        with server.call() as caller:
            assert caller.post(text) == "240 Article received"
        for is_first in (True, False):
            for receive_octets, rate in ((None, None), (SMALL_BUFFER, 1_000_000)):
                calls = [Caller(server.port, receive_octets), Caller(server.port, receive_octets)]
                closed, other = calls if is_first else reversed(calls)
                other.send(b"ARTICLE <long@a.example>\r\n" * 40)
                closed.send(b"ARTICLE <long@a.example>\r\n" * 4)
                closed.socket.shutdown(socket.SHUT_WR)
                assert closed.read_whole(reply * 4, rate) and closed.has_ended()
                assert other.read_whole(reply)
                for caller in calls:
                    caller.close()
        for number in range(20):
            post_and_read_and_close(server, number)


def post_and_read_and_close(server, number):
    """The reply to the post waits for a commit, and those after it wait with it."""
    text = long_article(number, 20_000)
    with server.call() as caller:
        named = message_id(number).encode()
        caller.send(b"POST\r\n" + text + b"STAT " + named + b"\r\nARTICLE " + named + b"\r\n")
        caller.socket.shutdown(socket.SHUT_WR)
        replies = b"340 Send article\r\n240 Article received\r\n223 0 " + named + b"\r\n220 0 " + named + b"\r\n"
        assert caller.read_whole(replies + text) and caller.has_ended()


def who_reads_slowly_is_told_all(volume):
    """More than any buffer holds, and then the end, also where the caller has sent its last."""
    volume.make_group()
    text = article("long", body="\r\n".join(["x" * 70] * 3400))
    with volume.serve() as server:
        with server.call() as caller:
            assert caller.post(text) == "240 Article received"
        side_by_side(*[lambda closes=closes: read_thirty(server, text, closes) for closes in (True, False)])


def read_thirty(server, text, closes):
    with Caller(server.port, receive_octets=SMALL_BUFFER) as caller:
        caller.send(b"ARTICLE <long@a.example>\r\n" * 30 + (b"" if closes else b"QUIT\r\n"))
        if closes:
            caller.socket.shutdown(socket.SHUT_WR)
        time.sleep(3)
        for _ in range(30):
            assert caller.line() == "220 0 <long@a.example>"
            assert caller.read_whole(text, 5_000_000)
        assert closes or caller.line() == "205 Bye"
        assert caller.has_ended()


def who_sends_no_command_is_let_go(volume):
    """Within half a minute of the greeting, however slowly it sends. Whoever has sent one command may be silent for longer."""
    volume.make_group()
    with volume.serve() as server:
        start = time.monotonic()
        silent, slow, late, early = (Caller(server.port, seconds=2 * FIRST) for _ in range(4))
        assert early.ask("DATE")[:3] == "111"

        def drip():
            for _ in range(FIRST // 2):
                time.sleep(1.5)
                try:
                    slow.send(b"D")
                except ConnectionError:
                    return

        def come_late():
            for octet in b"DATE\r\n":
                time.sleep(FIRST / 8)
                late.send(bytes([octet]))
            assert late.line()[:3] == "111"

        side_by_side(drip, come_late, lambda: see_its_end(silent, start), lambda: see_its_end(slow, start))
        while time.monotonic() < start + FIRST + 5:
            time.sleep(0.1)
        for caller in (late, early):
            assert caller.ask("DATE")[:3] == "111"
            caller.close()
        assert server.order("stop") == "stopped"
        server.process.wait(10)
        ends = [line.decode() for line in server.process.stderr if b"why=silent" in line]
        assert len(ends) == 2, ends


def see_its_end(caller, start):
    """The caller is let go once the time for a first command is over, and not before."""
    try:
        assert caller.file.read() == b""
    except ConnectionError:
        pass
    waited = time.monotonic() - start
    assert FIRST - 1 < waited < FIRST + 5, waited


def who_sends_too_slowly_is_let_go(volume):
    """A line ends within ten minutes of its first octet; a block goes on as long as it has come with a hundred octets a second. Silence would
    end none of these. It takes eleven minutes."""
    volume.make_group()
    text = long_article("long", 250_000)
    with volume.serve() as server:
        line, block, good = (Caller(server.port, seconds=2 * SLOW) for _ in range(3))
        for caller in (line, block, good):
            assert caller.ask("DATE")[:3] == "111"
        for caller in (block, good):
            assert caller.ask("POST")[:3] == "340"
        start = time.monotonic()

        def send(caller, octets, each, pause):
            try:
                for at in range(0, len(octets), each):
                    caller.send(octets[at:at + each])
                    time.sleep(pause)
            except ConnectionError:
                pass
            return time.monotonic() - start

        def is_let_go(caller, octets, each, pause):
            waited = send(caller, octets, each, pause)
            assert SLOW - 5 < waited < SLOW + 45, waited

        def is_served():
            # some 300 octets a second
            assert send(good, text[:200_000], 6_000, 20) > SLOW + 30
            good.send(text[200_000:])
            assert good.line() == "240 Article received"

        side_by_side(lambda: is_let_go(line, b"x" * 90, 1, 10), lambda: is_let_go(block, text[:4500], 50, 10), is_served)


TESTS = [
    who_sends_no_command_is_let_go,
    a_half_closed_caller_gets_all,
    who_reads_slowly_is_told_all,
    a_slow_reader_gets_all,
]

# played where they are named: they take four minutes, up to seven, and eleven
LONG_ONES = [who_takes_little_is_not_let_go, who_takes_little_of_a_large_reply_is_let_go, who_sends_too_slowly_is_let_go]

if __name__ == "__main__":
    sys.exit(main(TESTS, LONG_ONES))
