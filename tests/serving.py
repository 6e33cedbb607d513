#!/usr/bin/env python3
"""System tests of `newsd serve`: what callers and the operator learn. serving.py NEWSD [NAME..]"""
import datetime
import os
import random
import select
import socket
import sys
import tempfile
import threading
import time
import warnings

from fairness import is_at_rest
from logs import Log
from newsd import (ALL_FROM_ONE, GREETING, GROUP, HOST, SECONDS, SERVICE_ENDS, Caller, article, long_article, message_id, octets,
                   settled_octets, wait_until)
from playing import Skipped, main, side_by_side
from refusals import compile_library

# has the server's clock be as many seconds behind as a file says
SETTING_BACK = os.path.join(os.path.dirname(os.path.abspath(__file__)), "earlier.c")
HOUR = 3600
# articles whose numbers take several releases
NUMBERS = 30_000
# lines of an overview that no socket holds, how long their subjects are, who reads them late, and what each of these may take of memory
LINES, LINE = 900, 7_500
READERS, SMALL_BUFFER = 6, 8_192
MOST_OF_A_READER = 1 << 20
# how many sessions hold a long reply that is made whole
MOST_LARGE = 8
# so many new articles surely fit one release
FEW = 256
# articles with long ids, and how often who reads nothing asks for all, so that his socket doesn't take the answers
LONG_IDS, DEAF_ASKS = 1_000, 30
# those that ask for no article twice in one piece, beside others that post: for how long, and how often those post at most
ASKS_FOR_NONE, SECONDS_BESIDE, POSTS_BESIDE, WAITS = b"NEWNEWS * 20300101 000000\r\n", 8, 900, 15
SECONDS_OF_A_REFUSAL = 2
# callers that fill a volume, and how many articles each sends in one piece
FILLING, IN_A_PIECE = 8, 20
# what an article leaves of the volume, the blocks that it asks for, and the inodes of a group
LEFT_INODES, LEFT_BLOCKS, ASKED_BLOCKS, GROUP_FILES = 64, 320, 256, 3
# the octets of a large article, and those of memory that a refused one may take beside it
LARGE, MOST_OF_A_REFUSED = 262_000, 1 << 20
# what an operator does in a volume that callers have filled
EXPIRIES = 20
def who_fills_a_volume_leaves_its_operator_room(volume):
    """By articles that are too long for the pack, which take the inodes beside those of many groups; by large ones, and by short ones in the
    pack, which take the blocks. Who sends them stays and is told each time. Reading goes on, and so does the operator, whose expiries
    share the pack."""
    for name, size, in_a_piece, groups in (("inodes", 40_000, 1, 600), ("blocks", 200_000, 1, 1), ("pack", 10_000, IN_A_PIECE, 1)):
        full = volume.another(name, inodes=2048)
        full.make_group()
        with full.serve(words=ALL_FROM_ONE) as server:
            for number in range(2, groups + 1):
                assert server.order("group y.%d y 1000000000 test" % number) == str(number)
            log = Log(server.process.stderr)
            ends = []
            side_by_side(*(lambda own=own: ends.append(fill(server, own, size, in_a_piece)) for own in range(FILLING)))
            took, refused = map(sum, zip(*ends))
            assert {fields["cause"] for _, fields in log.wait("cause", refused)} == {"full"}
            assert {fields["why"] for _, fields in log.wait("end", FILLING)} == {"quit"}
            with server.call() as caller:
                assert caller.ask("GROUP x.a") == "211 %d 1 %d x.a" % (took, took)
                assert caller.ask("STAT 1").startswith("223 1 <") and caller.ask("IHAVE <new@a.example>") == "335 Send article"
                caller.send(article("new"))
                assert caller.line() == "436 Try again later" and caller.ask("STAT 1").startswith("223 1 <")
            left = free_of(server)
            assert left["inodes"] == LEFT_INODES if name == "inodes" else left["blocks"] < ASKED_BLOCKS + LEFT_BLOCKS, left
            assert left["blocks"] >= LEFT_BLOCKS, left
            serial = groups + took + 1
            assert server.order("group x.b y 1000000000 test") == str(serial)
            for number in range(1, EXPIRIES):
                assert server.order("expire x.a %d" % number) == str(serial + number)
            # the first file that goes into the pack makes it
            assert left["inodes"] - free_of(server)["inodes"] == GROUP_FILES + (0 if name == "pack" else 1)
            assert server.order("stop") == "stopped" and server.process.wait(SECONDS) == 0
        assert full.expire(EXPIRIES) == serial + EXPIRIES


def fill(server, own, size, in_a_piece):
    """Posts articles of this size until the server takes no more, and says how many it took and how many it refused."""
    took, refused = 0, 0
    with server.call() as caller:
        for at in range(10_000):
            ids = ["%d.%d.%d" % (own, at, number) for number in range(in_a_piece)]
            caller.send(b"".join(b"POST\r\n" + long_article(it, size) for it in ids))
            for _ in ids:
                assert caller.line() == "340 Send article"
                said = caller.line()
                # what is full stays so
                assert said == "441 Article not accepted" or said == "240 Article received" and not refused, said
                took, refused = (took, refused + 1) if said.startswith("441") else (took + 1, refused)
            if refused:
                assert caller.ask("QUIT") == "205 Bye"
                return took, refused
    raise AssertionError("it never was full")


def free_of(server):
    """The blocks and the inodes that are free, by the operator's line."""
    words = server.order("status").split()
    return {name: int(words[at + 3]) - int(words[at + 1]) for at, name in enumerate(words) if name in ("blocks", "inodes")}


LONG_ASKED = b"ARTICLE <long@a.example>\r\n"


def a_client_posts_and_reads_back(volume):
    volume.make_group()
    with volume.serve() as server, server.call() as caller, server.call() as other:
        assert caller.greeting == GREETING, caller.greeting
        assert caller.ask("STAT <1@a.example>") == "430 No such article"
        assert caller.ask("POST") == "340 Send article"
        caller.send(article(1))
        assert caller.line() == "240 Article received"
        assert other.ask("STAT <1@a.example>") == "223 0 <1@a.example>"
        assert other.post(article(1)) == "441 Article not accepted"
        assert caller.ask("FOO") == "500 Unknown command"
        assert caller.ask("QUIT") == "205 Bye"
        assert caller.has_ended()


def commands_come_in_one_piece(volume):
    volume.make_group()
    with volume.serve() as server, server.call() as caller:
        caller.send(b"STAT <9@a.example>\r\n" * 200)
        assert [caller.line() for _ in range(200)] == ["430 No such article"] * 200
        caller.send(b"POST\r\n" + article(1) + b"STAT <1@a.example>\r\nQUIT\r\nSTAT <1@a.example>\r\n")
        replies = ["340 Send article", "240 Article received", "223 0 <1@a.example>", "205 Bye"]
        assert [caller.line() for _ in replies] == replies
        assert caller.has_ended()


def octets_come_one_by_one(volume):
    volume.make_group()
    with volume.serve() as server, server.call() as caller:
        for octet in b"POST\r\n" + article(1):
            caller.send(bytes([octet]))
        assert [caller.line(), caller.line()] == ["340 Send article", "240 Article received"]


def a_caller_that_sends_no_more_is_told_all(volume):
    volume.make_group()
    with volume.serve() as server:
        for number in range(1, 21):
            with server.call() as caller:
                caller.send(b"POST\r\n" + article(number) + b"STAT")
                caller.socket.shutdown(socket.SHUT_WR)
                assert [caller.line(), caller.line()] == ["340 Send article", "240 Article received"]
                assert caller.has_ended()


def long_replies_come_whole_beside_posts(volume):
    """Each reply is longer than a release, and one caller asks for more at once than a session may hold."""
    volume.make_group()
    text = article("long", body="\r\n".join(["x" * 70] * 2800))
    whole, posted = [], []

    def read():
        with server.call() as caller:
            caller.send(b"ARTICLE <long@a.example>\r\n" * 20)
            for _ in range(20):
                whole.append(caller.line() == "220 0 <long@a.example>" and caller.file.read(len(text)) == text)

    def post(poster):
        with server.call() as caller:
            posted.extend(caller.post(article("%d.%d" % (poster, number))) for number in range(50))

    with volume.serve() as server:
        with server.call() as caller:
            assert caller.post(text) == "240 Article received"
        threads = [threading.Thread(target=read) for _ in range(4)]
        threads += [threading.Thread(target=post, args=(poster,)) for poster in range(4)]
        for thread in threads:
            thread.start()
        for thread in threads:
            thread.join()
    assert whole == [True] * 80 and posted == ["240 Article received"] * 200, (len(whole), len(posted))


def with_many(volume, prefix, count=NUMBERS):
    """A volume with many articles in a group, whose ids begin so."""
    large = volume.another("large", blocks=34_816, inodes=32_768)
    large.make_group()
    texts = [article(prefix + str(number))[:-len(b".\r\n")] for number in range(count)]
    given = b"".join(b"#! rnews %d\n%s" % (len(text), text) for text in texts)
    assert large.run("import", large.path, given=given).returncode == 0
    return large


def long_lists_of_numbers_come_whole_beside_posts(volume):
    """The lines of numbers are made as they are handed out, over several releases. Other articles come meanwhile."""
    large = with_many(volume, "")
    asked = [(1, NUMBERS), (9_000, 24_000), (NUMBERS - 1, NUMBERS), (1, NUMBERS), (7, 6), (1, NUMBERS)]
    with large.serve() as server, server.call() as other, Caller(server.port, receive_octets=8192) as reader:
        reader.send(b"".join(b"LISTGROUP %s %d-%d\r\n" % (GROUP.encode(), low, high) for low, high in asked))
        for number in range(20):
            assert other.post(article("late.%d" % number)).startswith("240")
        for low, high in asked:
            head = reader.line().split()
            assert (head[0], head[2], head[4:]) == ("211", "1", [GROUP, "list", "follows"]), head
            assert reader.read_whole(b"".join(b"%d\r\n" % number for number in range(low, high + 1)) + b".\r\n"), (low, high)


def a_long_overview_stays_as_it_was(volume):
    """The lines of a long OVER are made as they are read. They are those of its command, whatever is posted and expired meanwhile, and
    callers that read nothing of them take no memory for them."""
    volume.make_group()
    with volume.serve(words=ALL_FROM_ONE) as server, server.call() as other:
        for number in range(1, LINES + 1):
            assert other.post(article(number, "s" * LINE)) == "240 Article received"
        first = other.ask("GROUP " + GROUP)
        other.send(b"OVER 1-\r\n")
        whole = read_block(other)
        assert len(whole) > LINES * LINE
        before = server.memory()
        slow = [Caller(server.port, receive_octets=SMALL_BUFFER) for _ in range(READERS)]
        for caller in slow:
            assert caller.ask("GROUP " + GROUP) == first
            caller.send(b"OVER 1-\r\nDATE\r\n")
            assert caller.line() == whole.split(b"\r\n", 1)[0].decode()
        assert other.post(article(LINES + 1)) == "240 Article received"
        assert server.order("expire %s %d" % (GROUP, LINES - 1)) == str(LINES + 3)
        assert other.ask("OVER 1-%d" % (LINES - 1)).startswith("423 ")
        taken = server.memory() - before
        assert taken < READERS * MOST_OF_A_READER, taken
        for caller in slow:
            assert whole.endswith(read_block(caller))
            assert caller.line().startswith("111 ")
            caller.close()
        other.send(b"OVER 1-\r\n")
        assert read_block(other).count(b"\r\n") == 4


def read_block(caller):
    """The octets up to the line that ends a block."""
    lines = [caller.file.readline()]
    while lines[-1] != b".\r\n":
        lines.append(caller.file.readline())
        assert lines[-1]
    return b"".join(lines)


def few_large_replies_are_held_at_a_time(volume):
    """Who asks for a long NEWNEWS waits while eight callers hold one, or two of his own address. Who asks for few articles doesn't, nor do
    other commands, and the server stops all the same."""
    large = with_many(volume, "x" * 200)
    asked = b"NEWNEWS * 20010901 000000\r\n"
    with large.serve(words=ALL_FROM_ONE) as server, server.call() as other:
        other.send(asked)
        whole = read_block(other)
        assert whole.count(b"\r\n") == NUMBERS + 2
        # each address has as many as it may have
        holders = [Caller(server.port, receive_octets=SMALL_BUFFER, source="127.0.0.%d" % (2 + at // 2)) for at in range(MOST_LARGE)]
        late = [Caller(server.port, receive_octets=SMALL_BUFFER, source="127.0.0.%d" % (20 + at)) for at in range(2)]
        for caller in holders:
            caller.send(asked)
            assert caller.line().startswith("230 ")
        for caller in late:
            caller.send(asked)
        time.sleep(1)
        assert other.ask("DATE").startswith("111 ") and other.post(article("other")) == "240 Article received"
        other.send(b"NEWNEWS * 20300101 000000\r\n")
        assert read_block(other).count(b"\r\n") == 2
        other.send(b"OVER 1-\r\nLIST\r\nGROUP x.a\r\n")
        assert other.line().startswith("412 ") and read_block(other).startswith(b"215 ") and other.line().startswith("211 ")
        assert not select.select([caller.socket for caller in late], [], [], 0)[0]
        holders.pop().close()
        served = select.select([caller.socket for caller in late], [], [], SECONDS)[0]
        assert len(served) == 1
        first, second = sorted(late, key=lambda caller: caller.socket not in served)
        assert read_block(first) == whole[:-len(b".\r\n")] + b"<other@a.example>\r\n.\r\n"
        assert second.line().startswith("230 ")
        waiting = Caller(server.port, receive_octets=SMALL_BUFFER)
        waiting.send(asked)
        time.sleep(0.5)
        assert server.order("stop") == "stopped" and server.end()[0] == 0
        for caller in (*holders, first, second, waiting):
            caller.close()


def an_address_has_two_places(volume):
    """Of the eight that may hold a long NEWNEWS two are of one address. A third one of it waits, though six places are free, and is answered
    once one of the two has left. A caller of another address isn't kept waiting."""
    large = with_many(volume, "x" * 200, LONG_IDS)
    asked = b"NEWNEWS * 20010901 000000\r\n"
    with large.serve(words=ALL_FROM_ONE) as server:
        holders = [Caller(server.port, receive_octets=SMALL_BUFFER, source="127.0.0.2") for _ in range(2)]
        for caller in holders:
            caller.send(asked * DEAF_ASKS)
            assert caller.line().startswith("230 ")
        wait_until(lambda: is_at_rest(server))
        with Caller(server.port, seconds=WAITS, source="127.0.0.2") as third, Caller(server.port, seconds=WAITS, source="127.0.0.3") as other:
            # by a keyword in the other case, and with a TAB
            third.send(b"newnews\t" + asked.split(b" ", 1)[1])
            other.send(asked)
            assert read_block(other).count(b"\r\n") == LONG_IDS + 2
            assert not select.select([third.socket], [], [], 1)[0]
            holders[0].close()
            assert read_block(third).count(b"\r\n") == LONG_IDS + 2
        holders[1].close()
        wait_until(lambda: " sessions 0 " in server.order("status"))


def who_asks_for_few_waits_for_no_place(volume):
    """Beside two of his own address that hold a long NEWNEWS, a caller who asks for so many new articles as surely fit one release is
    answered at once, and one who asks for one more waits."""
    large = with_many(volume, "x" * 200, LONG_IDS)
    with large.serve(words=ALL_FROM_ONE) as server, Caller(server.port, seconds=WAITS) as asker:
        time.sleep(2)
        since = asker.ask("DATE").split()[1]
        line = ("NEWNEWS * %s %s\r\n" % (since[:8], since[8:])).encode()
        for number in range(FEW):
            assert asker.post(article("few%d" % number)) == "240 Article received"
        holders = [Caller(server.port, receive_octets=SMALL_BUFFER) for _ in range(2)]
        for caller in holders:
            caller.send(b"NEWNEWS * 20010901 000000\r\n" * DEAF_ASKS)
            assert caller.line().startswith("230 ")
        wait_until(lambda: is_at_rest(server))
        asker.send(line)
        assert read_block(asker).count(b"\r\n") == FEW + 2
        assert asker.post(article("one_more")) == "240 Article received"
        asker.send(line)
        assert not select.select([asker.socket], [], [], 1)[0]
        holders[0].close()
        assert read_block(asker).count(b"\r\n") == FEW + 3
        holders[1].close()


def newnews_beside_posts_stops_nobody(volume):
    """Callers that ask for new articles twice in one piece, again and again beside others that post, are all answered."""
    volume.make_group()
    with volume.serve(words=ALL_FROM_ONE) as server:
        end, served = time.monotonic() + SECONDS_BESIDE, []

        def ask():
            while time.monotonic() < end:
                with Caller(server.port, seconds=WAITS) as caller:
                    caller.send(ASKS_FOR_NONE * 2 + b"QUIT\r\n")
                    said = caller.file.read()
                    served.append(said.count(b"\r\n.\r\n") == 2 and said.count(b"205 ") == 1)

        def post(name):
            with Caller(server.port, seconds=WAITS) as caller:
                for number in range(POSTS_BESIDE):
                    if time.monotonic() > end:
                        return
                    served.append(caller.post(article("%s.%d" % (name, number))) == "240 Article received")

        threads = [threading.Thread(target=ask) for _ in range(MOST_LARGE)]
        threads += [threading.Thread(target=post, args=(name,)) for name in "abcd"]
        for thread in threads:
            thread.start()
        for thread in threads:
            thread.join()
        # one that fails or waits too long ends by an exception, and its connection stays
        assert all(served), served.count(False)
        wait_until(lambda: " sessions 0 " in server.order("status"))


def sixty_four_callers_and_one_more(volume):
    volume.make_group()
    with volume.serve(words=ALL_FROM_ONE) as server:
        callers = [server.call() for _ in range(64)]
        assert all(caller.greeting == GREETING for caller in callers)
        with Caller(server.port) as late:
            assert late.greeting == "400 Service ends" and late.has_ended()
        for number, caller in enumerate(callers):
            caller.send(b"POST\r\n" + article(number))
        for caller in callers:
            assert [caller.line(), caller.line()] == ["340 Send article", "240 Article received"]
        callers[7].close()
        end = time.monotonic() + 10
        while True:
            with Caller(server.port) as again:
                if again.greeting == GREETING:
                    break
            assert time.monotonic() < end
            time.sleep(0.01)
        for caller in callers:
            caller.close()


def who_takes_nothing_keeps_its_seat(volume):
    """A session that is over still has its thread while its caller doesn't take the last reply. Who comes then is told so at once."""
    volume.make_group()
    text = long_article("long", 60_000)
    with volume.serve(words=ALL_FROM_ONE) as server:
        with server.call() as caller:
            assert caller.post(text) == "240 Article received"
        wait_until(lambda: sessions_of(server) == 0)
        deaf = [Caller(server.port, receive_octets=4096) for _ in range(63)]
        for caller in deaf:
            assert caller.greeting == GREETING
            caller.send(LONG_ASKED * 200)
        deaf.append(caller_that_has_quit(server, len(b"220 0 <long@a.example>\r\n" + text)))
        with Caller(server.port, seconds=SECONDS_OF_A_REFUSAL) as late:
            assert late.greeting == SERVICE_ENDS, late.greeting
        for caller in deaf:
            caller.close()
        server.greet(10).close()


def caller_that_has_quit(server, size):
    """A caller whose session is over, and whose thread writes replies that it doesn't take. What its sockets take differs from time to time,
    so it is tried how many replies these are."""
    count = 40
    for _ in range(60):
        # the seat of the poster is free once its thread is
        caller = server.greet(10, receive_octets=4096)
        caller.send(LONG_ASKED * count + b"QUIT\r\n")
        time.sleep(0.2)
        is_over, is_stuck = sessions_of(server) == 63, server.octets_on_the_way(caller) < count * size
        if is_over and is_stuck:
            return caller
        caller.close()
        server.greet(10).close()
        wait_until(lambda: sessions_of(server) == 63)
        count += 1 if is_over else -1
    raise AssertionError("no session ends before its last reply is taken")


def sessions_of(server):
    """How many sessions the kernel has."""
    words = server.order("status").split()
    return int(words[words.index("sessions") + 1])


def a_clock_that_goes_back_hides_no_article(volume):
    """What is filed after the clock went back by an hour is news since the last DATE before, also after another start. A clock that goes
    back by two days is followed."""
    volume.make_group()
    with tempfile.TemporaryDirectory(prefix="newsd-earlier-") as folder:
        library, back = compile_library(folder, SETTING_BACK), os.path.join(folder, "back")
        if library is None:
            raise Skipped("there is no compiler for C")
        set_back(back, 0)
        earlier = ["env", "LD_PRELOAD=" + library, "SECONDS_BACK=" + back]
        with volume.serve(by=earlier) as server, server.call() as caller:
            assert caller.post(article(1)) == "240 Article received"
            since = date_of(caller)
            set_back(back, HOUR)
            assert caller.post(article(2)) == "240 Article received"
            assert message_id(2) in news_since(caller, since)
            assert date_of(caller) >= since
        with volume.serve(by=earlier) as server, server.call() as caller:
            assert date_of(caller) >= since
            assert caller.post(article(3)) == "240 Article received"
            assert message_id(3) in news_since(caller, since)
            set_back(back, 48 * HOUR)
            assert date_of(caller) < since - datetime.timedelta(hours=24)


def set_back(file, seconds):
    """Has the clock be so many seconds behind, at once."""
    with open(file + ".new", "w") as new:
        new.write(str(seconds))
    os.rename(file + ".new", file)


def date_of(caller):
    code, digits = caller.ask("DATE").split()
    assert code == "111"
    return datetime.datetime.strptime(digits, "%Y%m%d%H%M%S")


def news_since(caller, since):
    """The message-ids that NEWNEWS lists."""
    assert caller.ask(since.strftime("NEWNEWS * %Y%m%d %H%M%S")).startswith("230 ")
    return list(iter(caller.line, "."))


def a_web_page_cannot_post(volume):
    """A browser on the same machine sends a page's request to any port. What it says first ends its session, and nothing is answered."""
    volume.make_group()
    body = b"POST\r\n" + article("page") + b"QUIT\r\n"
    with volume.serve() as server:
        log = Log(server.process.stderr)
        for first, fields in ((b"POST / HTTP/1.1", b"Host: news.example"), (b"POST / HTTP/1.0", b""), (b"GET /?a=b HTTP/1.1", b""),
                              (b"DATE HTTP/1.1", b""), (b"POST /" + b"x" * 600 + b" HTTP/1.1", b"Host: 127.0.0.1:1119")):
            with server.call() as caller:
                assert caller.greeting == GREETING
                head = first + b"\r\n" + fields + (b"\r\n" if fields else b"")
                caller.send(head + b"Content-Type: text/plain\r\n\r\n" + body)
                said = read_to_the_end(caller)
                assert said in ([], ["501 Syntax error"]), (first, said)
        ends = log.wait("end", 5)
        assert [fields["why"] for _, fields in ends] == ["http"] * 5 and {fields["taken"] for _, fields in ends} == {"0"}, ends
        with server.call() as caller:
            assert caller.ask("STAT <page@a.example>") == "430 No such article"
            for line in ("HTTP/1.1", "GET / HTTP/1.1 ", "GET / HTTP/2", "Hosts: a", "host", "POST HTTP/1.1x"):
                assert caller.ask(line)[:2] == "50", line
            assert caller.post(article(1, subject="a HTTP/1.1", body="Host: a\r\nGET / HTTP/1.1")) == "240 Article received"


def an_article_with_many_groups_takes_no_memory(volume):
    """Of 250,001 parts of its Newsgroups none is kept: it is refused as one of seventeen is."""
    volume.make_group()
    with volume.serve() as server, server.call() as caller:
        for number in range(3):
            assert caller.post(long_article(number, LARGE)) == "240 Article received"
        before = server.memory("VmHWM")
        many = article(9).replace(b"Newsgroups: x.a", b"Newsgroups: x.a" + b"," * 250_000)
        seventeen = article(9).replace(b"Newsgroups: x.a", b"Newsgroups: " + b",".join(b"x.%d" % it for it in range(17)))
        sixteen = article(9).replace(b"Newsgroups: x.a", b"Newsgroups: x.a," + b",".join(b"x.%d" % it for it in range(15)))
        for text, reply in ((many, "441 Article not accepted"), (seventeen, "441 Article not accepted"), (sixteen, "240 Article received")):
            assert caller.post(text) == reply
        assert server.memory("VmHWM") - before < MOST_OF_A_REFUSED, (before, server.memory("VmHWM"))


def read_to_the_end(caller):
    """The lines up to the end, also where the end discards octets that were sent."""
    lines = []
    try:
        while True:
            line = caller.line()
            if not line:
                return lines
            lines.append(line)
    except ConnectionError:
        return lines


def a_kill_under_load_takes_nothing_back(volume):
    volume.make_group()
    seed = random.randrange(1 << 32)
    print("  seed", seed)
    chance = random.Random(seed)
    told = set()
    for round_number in range(3):
        lock = threading.Lock()

        def post(poster):
            try:
                with server.call() as caller:
                    for number in range(60):
                        name = "%d.%d.%d" % (round_number, poster, number)
                        if caller.post(article(name)) != "240 Article received":
                            return
                        with lock:
                            told.add(name)
            except (OSError, ValueError):
                pass

        def look():
            try:
                with server.call() as caller:
                    for number in range(2000):
                        name = "%d.%d.%d" % (round_number, number % 16, number // 16)
                        if caller.ask("STAT " + message_id(name)).startswith("223"):
                            with lock:
                                told.add(name)
            except (OSError, ValueError):
                pass

        threads = [threading.Thread(target=post, args=(poster,)) for poster in range(16)]
        threads.append(threading.Thread(target=look))
        with volume.serve() as server:
            for thread in threads:
                thread.start()
            time.sleep(chance.uniform(0.05, 0.4))
            server.kill()
            for thread in threads:
                thread.join()
        with volume.serve() as again, again.call() as caller:
            for name in sorted(told):
                assert caller.ask("STAT " + message_id(name)).startswith("223"), name
    lines = volume.dump()
    assert lines[0] == "spool %d" % (len(lines) - 1)
    there = {line.split()[2] for line in lines[2:]}
    assert len(there) == len(lines) - 2
    assert {message_id(name) for name in told} <= there
    print("  %d told, %d there" % (len(told), len(there)))


def one_server_holds_a_volume(volume):
    volume.make_group()
    with volume.serve() as server, server.call() as caller:
        assert caller.post(article(1)) == "240 Article received"
        before = settled_octets(volume.path)
        for words in (
            ["serve", volume.path, "--port", "1"],
            ["dump", volume.path],
            ["group", volume.path, "x.b", "y", "1000000000", "test"],
            ["expire", volume.path, GROUP, "1"],
            ["format", volume.path, "--host", HOST],
        ):
            done = volume.run(*words)
            # the holder's number isn't seen from everywhere
            holders = ["process %d" % server.process.pid, "a server or another command"]
            refused = ["newsd: E1 Fault: the volume is in use by %s\n" % holder for holder in holders]
            assert (done.returncode, done.stdout) == (1, b"") and done.stderr.decode() in refused, (words, done)
        assert octets(volume.path) == before
        assert caller.ask("STAT <1@a.example>") == "223 0 <1@a.example>"
    assert volume.dump() == ["spool 2", "1 group %s y" % GROUP, "2 article <1@a.example> %s" % GROUP]


def the_operator_makes_changes(volume):
    with volume.serve() as server, server.call() as caller:
        assert server.order("group x.a y 1000000000 test") == "1"
        assert server.order("group x.a y 1000000000 test") == "E11 Exists"
        assert server.order("group x..b y 1000000000 test") == "E14 Bad"
        assert server.order("spool") == "E14 Bad"
        assert server.order("group x.b n 1000000000 t") == "2"
        assert server.order("expire x.a 1") == "E12 NotFound"
        assert caller.post(article(1)) == "240 Article received"
        assert server.order("expire x.a one") == "E14 Bad"
        assert server.order("expire x.a 0") == "E12 NotFound"
        assert server.order("expire x.a 1") == "4"
        for line in ("group x.%s y now test" % (39 * "c"), "expire x.%s 1" % (39 * "c")):
            assert server.order(line) == "E14 Bad: the name of a group has more than 40 octets"
        before = int(time.time())
        assert server.order("group x.%s y now test" % (38 * "c")) == "5"
        caller.send(b"LIST ACTIVE.TIMES x.c*\r\n")
        assert caller.line().startswith("215 ") and before <= int(caller.line().split()[1]) <= time.time() and caller.line() == "."
        assert server.order("expire x.a 1") == "E12 NotFound"
        assert caller.ask("STAT <1@a.example>") == "430 No such article"
    assert volume.dump() == [
        "spool 5", "1 group x.a y", "2 group x.b n", "3 article <1@a.example> x.a", "4 expire x.a 1", "5 group x.%s y" % (38 * "c"),
    ]


def the_operator_looks(volume):
    volume.make_group()
    with volume.serve() as server, server.call() as caller:
        said = status_of(server.order("status").split())
        assert (said["host"], said["format"]) == (HOST, "3"), said
        assert (said["blocks"][1], said["inodes"]) == ("8192", ("3", "4096")), said
        assert (said["sessions"], said["accepted"], said["durable"], said["batches"]) == ("1", "1", "1", "0"), said
        assert caller.post(article(1)) == "240 Article received"
        wait_until(lambda: status_of(server.order("status").split())["batches"] == "1")
        then = status_of(server.order("status").split())
        assert (then["inodes"][0], then["accepted"], then["durable"]) == ("4", "2", "2"), then
        assert int(then["blocks"][0]) > int(said["blocks"][0]) and int(then["syncs"]) > int(said["syncs"]), (said, then)


def status_of(words):
    """The names of a status line, each with its number, or with its two numbers."""
    said, at = {}, 0
    while at < len(words):
        has_two = words[at + 2:at + 3] == ["of"]
        said[words[at]] = (words[at + 1], words[at + 3]) if has_two else words[at + 1]
        at += 4 if has_two else 2
    return said


def a_stop_under_load_ends_in_order(volume):
    volume.make_group()
    told, replies, lock = set(), set(), threading.Lock()

    def post(poster):
        with server.call() as caller:
            try:
                for number in range(1000):
                    name = "%d.%d" % (poster, number)
                    reply = caller.post(article(name))
                    with lock:
                        if reply != "240 Article received":
                            return replies.add(reply)
                        told.add(name)
            except OSError:
                replies.add("")

    threads = [threading.Thread(target=post, args=(poster,)) for poster in range(16)]
    with volume.serve() as server:
        for thread in threads:
            thread.start()
        wait_until(lambda: len(told) >= 100, SECONDS)
        assert server.order("stop") == "stopped"
        assert server.end() == (0, "")
        for thread in threads:
            thread.join()
    # each accepted article was acknowledged, and nothing else was told than that the service ends
    assert {line.split()[2] for line in volume.dump()[2:]} == {message_id(name) for name in told}
    assert replies <= {"", SERVICE_ENDS}, replies
    print("  %d told" % len(told))


def a_server_with_nothing_to_do_stops(volume):
    with volume.serve() as server, server.call() as caller:
        assert caller.greeting == GREETING
        assert server.order("stop") == "stopped"
        assert caller.has_ended()
        assert server.end() == (0, "")
    with volume.serve() as server:
        assert server.order("group x.a y 1000000000 test") == "1"
        assert server.order("stop") == "stopped"
        assert server.end() == (0, "")
    assert volume.dump() == ["spool 1", "1 group x.a y"]


def articles_are_taken_out(volume):
    volume.make_group()
    with volume.serve() as server, server.call() as caller:
        for number in (1, 2, 3):
            assert caller.post(article(number)) == "240 Article received"
    for name, number, why in ((GROUP, "4", "the group has no article of this number"), ("x.b", "1", "the group isn't here")):
        refused = volume.run("expire", volume.path, name, number)
        assert (refused.returncode, refused.stderr.decode()) == (1, "newsd: E12 NotFound: %s\n" % why), refused
    assert volume.expire(2) == 5
    assert volume.dump()[-1] == "5 expire x.a 2"
    with volume.serve() as server, server.call() as caller:
        for line, reply in (
            ("GROUP x.a", "211 1 3 3 x.a"),
            ("STAT <1@a.example>", "430 No such article"),
            ("STAT <3@a.example>", "223 0 <3@a.example>"),
            ("STAT 2", "423 No such article number"),
            ("IHAVE <1@a.example>", "435 Article not wanted"),
        ):
            assert caller.ask(line) == reply, line
        assert server.order("expire x.a 2") == "E12 NotFound"
        assert server.order("expire x.a 3") == "6"
        assert caller.ask("GROUP x.a") == "211 0 4 3 x.a"
        assert caller.post(article(1)) == "441 Article not accepted"
        assert caller.post(article(4)) == "240 Article received"
        assert caller.ask("GROUP x.a") == "211 1 4 4 x.a"


def a_client_library_reads(volume):
    """The client of Python's library, which newer Pythons don't have."""
    try:
        with warnings.catch_warnings():
            warnings.simplefilter("ignore")
            import nntplib
    except ImportError:
        raise Skipped("this Python has no client")
    volume.make_group()
    posted = b"From: a@example.org\r\nNewsgroups: x.a\r\nSubject: a dot\r\n\r\n.x\r\n..\r\n"
    with volume.serve() as server, nntplib.NNTP("127.0.0.1", server.port, timeout=30) as client:
        assert client.getwelcome() == GREETING
        assert client.nntp_version == 2 and "OVER" in client.getcapabilities()
        assert client.post(posted) == "240 Article received"
        assert client.ihave("<1@a.example>", article(1)[:-3]) == "235 Article transferred"
        assert client.group("x.a") == ("211 2 1 2 x.a", 2, 1, 2, "x.a")
        _, overviews = client.over((1, 2))
        assert [(number, fields["subject"], fields["from"]) for number, fields in overviews] == [
            (1, "a dot", "a@example.org"), (2, "one", "a@example.org"),
        ]
        _, found = client.article("<2@%s>" % HOST)
        assert found.lines[0] == b"Path: %s!not-for-mail" % HOST.encode()
        assert found.lines[-3:] == [b"", b".x", b".."], found.lines
        _, found = client.head("2")
        assert (found.number, found.message_id, len(found.lines)) == (2, "<1@a.example>", 6)
        assert client.stat("1")[1:] == (1, "<2@%s>" % HOST)
        assert client.next()[1:] == (2, "<1@a.example>")
        assert client.list()[1] == [("x.a", "2", "1", "y")]
        assert client.descriptions("x.*")[1] == {"x.a": "test"}
        long_ago = datetime.date(2000, 1, 1)
        assert [group.group for group in client.newgroups(long_ago)[1]] == ["x.a"]
        assert client.newnews("x.*", long_ago)[1] == ["<2@%s>" % HOST, "<1@a.example>"]


TESTS = [
    a_client_posts_and_reads_back,
    commands_come_in_one_piece,
    octets_come_one_by_one,
    a_caller_that_sends_no_more_is_told_all,
    long_replies_come_whole_beside_posts,
    long_lists_of_numbers_come_whole_beside_posts,
    a_long_overview_stays_as_it_was,
    few_large_replies_are_held_at_a_time,
    an_address_has_two_places,
    who_asks_for_few_waits_for_no_place,
    newnews_beside_posts_stops_nobody,
    sixty_four_callers_and_one_more,
    who_takes_nothing_keeps_its_seat,
    a_clock_that_goes_back_hides_no_article,
    a_web_page_cannot_post,
    an_article_with_many_groups_takes_no_memory,
    a_kill_under_load_takes_nothing_back,
    one_server_holds_a_volume,
    the_operator_makes_changes,
    the_operator_looks,
    a_stop_under_load_ends_in_order,
    a_server_with_nothing_to_do_stops,
    articles_are_taken_out,
    who_fills_a_volume_leaves_its_operator_room,
    a_client_library_reads,
]


if __name__ == "__main__":
    sys.exit(main(TESTS))
