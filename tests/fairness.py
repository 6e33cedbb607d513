#!/usr/bin/env python3
"""System tests of what callers do to one another, in time and in memory. fairness.py NEWSD [NAME..]

Others who work on the machine may make a measure too slow, so it is taken three times at most. That each reply is right has to hold each
time."""
import contextlib
import itertools
import statistics
import sys
import threading
import time

from flooding import Flood
from newsd import ALL_FROM_ONE, GREETING, GROUP, Caller, article, long_article, message_id, wait_until
from playing import TooSlow, main, measured, side_by_side

SESSIONS = 64
LONG = 250_000
ASKED = b"ARTICLE <long@a.example>\r\n"
SMALL_BUFFER = 8192

# the articles of a large group, the volume that has room for them, and what is answered by a line for each of them
ARTICLES = 30_000
BLOCKS, INODES = 34_816, 32_768
LONG_ANSWERS = ["NEWNEWS * 20010901 000000", "OVER 1-%d" % ARTICLES, "LISTGROUP"]
# how many callers ask for it at one time
ASKING = 4
# how many callers may hold a long NEWNEWS, and how long one of them waits for an octet
HOLDERS, WAITS = 8, 15
ASKED_NEW = b"NEWNEWS * 20000101 000000\r\n"
# so many that the socket doesn't take the answers
LONG_IDS, DEAF_NEWNEWS = ["%0200d" % number for number in range(1_000)], 30
# as many groups as a volume may have, a volume for them, how many callers ask for dear lines, and of which wildmats
GROUPS, GROUPS_BLOCKS, GROUPS_INODES = 4_096, 16_384, 16_384
DEAR, LONGEST_LINE = 16, 510
WILDMATS = ["*", ",".join(["*a*a*a*a*b"] * 44 + ["*"]), ",".join(["*a" * 34 + "*b"] * 6 + ["*"])]
END_OF_BLOCK = b".\r\n"

DATES = 150
WORST_DATE = 0.1
MEDIAN_DATE = 0.01
# a dear line keeps the kernel for twice the 9 ms that this was on a quiet machine
MEDIAN_BESIDE_DEAR = 0.02
WORST_POST = 0.5
WORST_GREETING = 0.5

# for each session: the message that is read and what doubles it, the replies that are held and one more, and what is ready
MOST_MEMORY = 2 * 262_144 + 1_048_576 + 262_144 + 65_536
MOST_OF_A_LINE = 800_000


def with_long_article(volume):
    """The article that the heavy callers ask for, and the whole reply."""
    volume.make_group()
    text = long_article("long", LONG)
    with volume.serve() as server, server.call() as caller:
        assert caller.post(text) == "240 Article received"
    return b"220 0 <long@a.example>\r\n" + text


def pair(server, is_first):
    """A heavy caller that joined first, or last, and another one."""
    calls = [server.call(), server.call()]
    return calls if is_first else calls[::-1]


def a_flood_starves_nobody(volume):
    reply = with_long_article(volume)
    posted = itertools.count()
    with volume.serve() as server:
        for is_first in (True, False):
            for rate in (None, 400_000, 20_000, 0):
                heavy, other = pair(server, is_first)
                with heavy, other, Flood(heavy, ASKED, reply, rate) as flood:
                    wait_until_it_gets_more(flood, rate)
                    time.sleep(0.3)
                    dates = measured(lambda: measure_dates(other))
                    measured(lambda: measure_post(other, next(posted)))
                    wait_until_it_gets_more(flood, rate)
                    assert not flood.has_failed()
                speed = "at once" if rate is None else "%d octets a second" % rate
                print("  beside %s, which joined %s: %s" % (speed, "first" if is_first else "last", dates), flush=True)


def wait_until_it_gets_more(flood, rate):
    before = flood.count.value
    wait_until(lambda: rate == 0 or flood.has_failed() or flood.count.value > before)


def measure_dates(caller, most=MEDIAN_DATE):
    times = []
    for _ in range(DATES):
        times.append(timed(lambda: caller.ask("DATE"), lambda reply: reply.startswith("111 ")))
        time.sleep(0.005)
    said = "DATE median %.1f ms, worst %.1f ms" % (1000 * statistics.median(times), 1000 * max(times))
    if max(times) >= WORST_DATE or statistics.median(times) >= most:
        raise TooSlow(said)
    return said


def measure_post(caller, number):
    seconds = timed(lambda: caller.post(article(number)), lambda reply: reply == "240 Article received")
    if seconds > WORST_POST:
        raise TooSlow("POST %.0f ms" % (1000 * seconds))


def timed(call, is_right):
    start = time.monotonic()
    answer = call()
    seconds = time.monotonic() - start
    assert is_right(answer), answer
    return seconds


def long_answers_starve_nobody(volume):
    """Four callers ask for an answer of 30,000 lines without end, and read it as fast as they can."""
    large = volume.another("large", blocks=BLOCKS, inodes=INODES)
    large.make_group()
    assert large.run("import", large.path, given=batch(ARTICLES)).returncode == 0
    with large.serve() as server:
        for asked in LONG_ANSWERS:
            print("  beside %d callers of %s: %s" % (ASKING, asked, dates_beside(server, [asked] * ASKING)), flush=True)
        print("  beside callers of each, and one that reads nothing: %s" % dates_beside(server, LONG_ANSWERS, deaf=LONG_ANSWERS[1]), flush=True)


def dear_lines_starve_nobody(volume):
    """Sixteen callers ask for what takes the server most work: long wildmats over as many groups as there may be."""
    names = ["x." + "a" * 34 + "%04d" % number for number in range(GROUPS)]
    large = volume.another("large", blocks=GROUPS_BLOCKS, inodes=GROUPS_INODES)
    with large.serve(words=ALL_FROM_ONE) as server:
        orders = "".join('group %s y 1000000000 "A group"\n' % name for name in names)
        side_by_side(lambda: server.process.stdin.write(orders.encode()), lambda: [server.process.stdout.readline() for _ in names])
        for wildmat in WILDMATS:
            asked = "LIST ACTIVE " + wildmat
            assert len(asked) <= LONGEST_LINE
            with server.call() as caller:
                began = time.monotonic()
                caller.send(asked.encode() + b"\r\n")
                lines = [caller.file.readline()]
                # a line waits for one such answer at most, which takes what the processor takes
                median = max(MEDIAN_BESIDE_DEAR, 1.5 * (time.monotonic() - began))
                while lines[-1] not in (END_OF_BLOCK, b""):
                    lines.append(caller.file.readline())
            assert lines[0].startswith(b"215 ") and len(lines) == GROUPS + 2, lines[:2]
            reply = b"".join(lines)
            with contextlib.ExitStack() as stack:
                other = stack.enter_context(server.call())
                callers = [stack.enter_context(server.call()) for _ in range(DEAR)]
                floods = [stack.enter_context(Flood(caller, asked.encode() + b"\r\n", reply, None)) for caller in callers]
                for flood in floods:
                    wait_until_it_gets_more(flood, None)
                dates = measured(lambda: measure_dates(other, median))
                assert not any(flood.has_failed() for flood in floods)
            print("  beside %d callers of %.30s..: %s" % (DEAR, asked, dates), flush=True)


def batch(count):
    """So many short articles, as a batch for rnews."""
    texts = (article(number)[:-len(END_OF_BLOCK)] for number in range(count))
    return b"".join(b"#! rnews %d\n%s" % (len(text), text) for text in texts)


def dates_beside(server, questions, deaf=None):
    """How long DATE takes beside callers each of whom asks one of these, and one that asks `deaf` and reads nothing."""
    replies = {asked: long_reply(server, asked) for asked in questions}
    with contextlib.ExitStack() as stack:
        if deaf:
            stack.enter_context(Flood(stack.enter_context(in_group(server)), deaf.encode() + b"\r\n", replies[deaf], 0))
        other = stack.enter_context(server.call())
        floods = []
        for asked in questions:
            caller = stack.enter_context(in_group(server))
            floods.append(stack.enter_context(Flood(caller, asked.encode() + b"\r\n", replies[asked], None)))
        for flood in floods:
            wait_until_it_gets_more(flood, None)
        dates = measured(lambda: measure_dates(other))
        for flood in floods:
            wait_until_it_gets_more(flood, None)
            assert not flood.has_failed()
    return dates


def in_group(server):
    caller = server.call()
    assert caller.ask("GROUP " + GROUP).startswith("211 ")
    return caller


def long_reply(server, asked):
    """The reply, which has a line for each article."""
    with in_group(server) as caller:
        caller.send(asked.encode() + b"\r\n")
        lines = [caller.file.readline()]
        while lines[-1] not in (END_OF_BLOCK, b""):
            lines.append(caller.file.readline())
    first, *articles, last = lines
    assert (len(articles), last) == (ARTICLES, END_OF_BLOCK), (asked, first, len(articles), last)
    return b"".join(lines)


def sixty_three_deaf_callers(volume):
    """The caller that is served joined first, or last. The rate is compared with that of a server that has no other caller."""
    reply = with_long_article(volume)
    alone = volume.another("alone")
    last = volume.another("last")
    alone.make_group()
    with_long_article(last)
    with volume.serve(words=ALL_FROM_ONE) as one, last.serve(words=ALL_FROM_ONE) as two, alone.serve() as three:
        before = {server: server.memory() for server in (one, two)}
        posters = [one.call()]
        deaf = {server: [ask_and_read_nothing(server) for _ in range(SESSIONS - 1)] for server in (one, two)}
        posters += [two.call(), three.call()]
        assert all(poster.greeting == GREETING for poster in posters)
        wait_until(lambda: is_at_rest(one) and is_at_rest(two))
        rounds = itertools.count()
        best = [0, 0, 0]

        def measure():
            for number in itertools.islice(rounds, 3):
                for at, poster in enumerate(posters):
                    best[at] = max(best[at], rate_of(poster, number))
            said = "joined first %.0f, last %.0f, alone %.0f articles in a second" % tuple(best)
            if min(best[:2]) < best[2] / 2:
                raise TooSlow(said)
            return said

        print("  " + measured(measure), flush=True)
        for server, callers in deaf.items():
            grown = server.memory("VmHWM") - before[server]
            print("  memory grows by %.1f MB" % (grown / 1e6), flush=True)
            assert grown < SESSIONS * MOST_MEMORY, grown
            assert all(server.has_established(caller) for caller in callers)
            assert all(caller.read_whole(reply) for caller in callers[::16])
            for caller in callers:
                caller.close()
        for poster in posters:
            poster.close()


def who_waits_for_a_place_has_what_is_ready(volume):
    """Beside callers of eight addresses that each hold a long NEWNEWS and read nothing, one who posts and asks for one in one piece has
    the reply to the post at once. The operator ends one that waits, and who waits first comes first."""
    volume.make_group()
    with volume.serve(words=ALL_FROM_ONE) as server, contextlib.ExitStack() as stack:
        file_many(server, LONG_IDS)
        for at in range(HOLDERS):
            deaf = stack.enter_context(Caller(server.port, SMALL_BUFFER, source="127.0.0.%d" % (20 + at)))
            deaf.send(ASKED_NEW * DEAF_NEWNEWS)
        wait_until(lambda: is_at_rest(server))
        waiters = [stack.enter_context(Caller(server.port, seconds=WAITS, source="127.0.0.%d" % (40 + at))) for at in range(3)]
        for at, waiter in enumerate(waiters):
            waiter.send(b"POST\r\n" + article("w%d" % at) + ASKED_NEW)
            assert waiter.line().startswith("340 ") and waiter.line().startswith("240 ")
        assert server.order("drop 127.0.0.40") == "dropped 1"
        assert waiters[0].has_ended()
        assert server.order("drop 127.0.0.20") == "dropped 1"
        assert waiters[1].line().startswith("230 ") and waiters[2].line().startswith("230 ")


def file_many(server, ids):
    with server.call() as caller:
        for number in ids:
            assert caller.post(article(number)) == "240 Article received"


def ask_and_read_nothing(server):
    caller = Caller(server.port, receive_octets=SMALL_BUFFER)
    assert caller.greeting == GREETING
    caller.send(ASKED * 60)
    return caller


def is_at_rest(server):
    before = server.processor_seconds()
    time.sleep(0.2)
    return server.processor_seconds() == before


def rate_of(caller, number):
    """Posts articles one after the other and reads them back, and says how many of both it did in a second."""
    texts = {"%d.%d" % (number, at): article("%d.%d" % (number, at)) for at in range(100)}
    start = time.monotonic()
    for text in texts.values():
        assert caller.post(text) == "240 Article received"
    for name, text in texts.items():
        assert caller.ask("ARTICLE " + message_id(name)) == "220 0 " + message_id(name)
        assert caller.read_whole(text)
    return 2 * len(texts) / (time.monotonic() - start)


def a_caller_that_quits_and_stays_holds_nobody(volume):
    """Callers who quit neither read the end nor close: one more is served at once, and so is who was there before. Some send on."""
    volume.make_group()
    for more in (b"", b"STAT <9@a.example>\r\n" * 100):
        measured(lambda: measure_greeting(volume, SESSIONS, more))
        measured(lambda: measure_greeting(volume, SESSIONS - 1, more))


def measure_greeting(volume, count, more):
    """Callers quit. Where they leave a session free, the caller that has it joined before them."""
    with volume.serve(words=ALL_FROM_ONE) as server:
        first = [server.call() for _ in range(SESSIONS - count)]
        quitters = [server.call() for _ in range(count)]
        assert all(caller.greeting == GREETING for caller in first + quitters)
        for _ in range(2):
            for caller in quitters:
                caller.send(b"QUIT\r\n" + more)
            served = [timed(lambda: caller.ask("DATE"), lambda reply: reply.startswith("111 ")) for caller in first]
            start = time.monotonic()
            late = server.greet(10)
            assert late.ask("DATE").startswith("111 ")
            served.append(time.monotonic() - start)
            if max(served) > WORST_GREETING:
                raise TooSlow("served after %.0f ms" % (1000 * max(served)))
            late.close()
            quitters = [server.greet(10) for _ in range(count)]


def callers_that_misbehave_hold_up_nobody(volume):
    volume.make_group()
    numbers = itertools.count()
    with volume.serve() as server, server.call() as good:
        deaf = Caller(server.port, receive_octets=2048)
        deaf.socket.settimeout(0.2)
        asking = threading.Thread(target=ask_short_ones, args=(deaf,))
        asking.start()
        endless, cut = server.call(), server.call()
        endless.send(b"A" * 100_000)
        cut.send(b"POST\r\n" + article("cut")[:60])
        cut.close()
        for _ in range(100):
            measured(lambda: measure_post(good, next(numbers)))
            time.sleep(0.01)
        deaf.close()
        asking.join()
        endless.close()


def ask_short_ones(caller):
    """Asks as much as goes, and reads nothing."""
    try:
        for _ in range(2000):
            try:
                caller.send(b"STAT <9@a.example>\r\n" * 500)
            except TimeoutError:
                pass
    except OSError:
        pass


def endless_lines_cost_little(volume):
    """As a command, or after POST. Callers that joined before or after them are served meanwhile, and they are served on."""
    volume.make_group()
    with volume.serve() as server:
        first = server.call()
        before = server.memory()
        callers = [server.call() for _ in range(16)]
        last = server.call()
        side_by_side(
            *[lambda caller=caller: send_endless_line(caller, False) for caller in callers[:8]],
            *[lambda caller=caller: send_endless_line(caller, True) for caller in callers[8:]],
            *[lambda caller=caller: ask_often(caller) for caller in (first, last)],
        )
        grown = server.memory("VmHWM") - before
        print("  memory grows by %.2f MB" % (grown / 1e6))
        assert grown < len(callers) * MOST_OF_A_LINE, grown
        for caller in (first, last, *callers):
            assert caller.ask("QUIT") == "205 Bye" and caller.has_ended()
            caller.close()


def send_endless_line(caller, is_posted):
    if is_posted:
        assert caller.ask("POST") == "340 Send article"
    for _ in range(100):
        caller.send(b"A" * 100_000)
    caller.send(b"\r\n.\r\n" if is_posted else b"\r\n")
    reply = caller.line()
    assert reply.startswith("441 " if is_posted else "501 "), reply
    assert caller.ask("DATE").startswith("111 ")


def ask_often(caller):
    for _ in range(50):
        assert caller.ask("STAT <9@a.example>") == "430 No such article"
        time.sleep(0.01)


def a_server_at_rest_takes_no_processor(volume):
    with volume.serve() as server, server.call():
        time.sleep(0.3)
        before = server.processor_seconds()
        time.sleep(1.5)
        assert server.processor_seconds() - before <= 0.02


TESTS = [
    a_flood_starves_nobody,
    long_answers_starve_nobody,
    dear_lines_starve_nobody,
    sixty_three_deaf_callers,
    a_caller_that_quits_and_stays_holds_nobody,
    callers_that_misbehave_hold_up_nobody,
    endless_lines_cost_little,
    who_waits_for_a_place_has_what_is_ready,
    a_server_at_rest_takes_no_processor,
]

if __name__ == "__main__":
    sys.exit(main(TESTS, is_timed=True))
