#!/usr/bin/env python3
"""System tests of many callers at once, in rounds: each of 16 to 60 callers posts in one of several ways, and some ask, quit, reset their
sockets or end their side; some rounds fill the volume, and in some the operator stops the server or its device fails. No post is lost,
doubled, out of order within its session or answered twice, and none is left unanswered. The seed of a round that fails is printed.
posting.py NEWSD [NAME..]; NEWSD_ROUNDS has other numbers of rounds, and NEWSD_SEED another first seed."""
import collections
import os
import random
import re
import signal
import socket
import struct
import sys
import threading
import time

from newsd import ALL_FROM_ONE, GREETING, SERVICE_ENDS, Caller, Volume, article, long_article, message_id
from playing import main, side_by_side

FEW_ROUNDS, MANY_ROUNDS = 40, 2000
SECONDS_OF_MANY = 7200
FIRST_SEED = 1
# a caller waits so many seconds for a reply; one that waits longer stands still
PATIENCE = 20
FEWEST, MOST = 16, 60
ACCEPTED, REFUSED, SEND, BYE = "240 ", "441 ", "340 ", "205 "
# a caller does at most so many things
STEPS = 12
SMALL, LARGE = 256, 2048
BLOCKS = 4096
POSTS_OF_EACH = 10
# more octets than a socket holds, of an article of so many
LONG, QUESTIONS = 29000, 600
OTHERS, SECONDS_OF_A_POST = 8, 3
RESET = struct.pack("ii", 1, 0)
ID = re.compile(r"<(\d+\.\d+)@a\.example>")


class Ended(Exception):
    """The server has ended the session as it may."""


class Session:
    """A caller of a round: what it has sent, and what it was answered."""

    def __init__(self, number, port, chance, steps, may_end):
        self.number, self.chance, self.steps, self.may_end = number, chance, steps, may_end
        self.port, self.caller = port, None
        self.accepted, self.refused, self.unknown, self.sent = [], set(), set(), 0
        self.failure = None

    def play(self):
        try:
            self.caller = Caller(self.port, seconds=PATIENCE)
            try:
                self.greeted()
                for _ in range(self.steps):
                    self.step()
                self.end()
            finally:
                self.caller.close()
        except Ended:
            pass
        except socket.timeout:
            self.failure = "caller %d stands still: %r" % (self.number, self.doing)
        except OSError as error:
            if not self.may_end:
                self.failure = "caller %d: %r while %r" % (self.number, error, self.doing)
        except BaseException as error:
            self.failure = "caller %d: %r while %r" % (self.number, error, self.doing)

    doing = "greeting"

    def greeted(self):
        if self.caller.greeting != GREETING:
            assert self.may_end and self.caller.greeting in (SERVICE_ENDS, ""), self.caller.greeting
            raise Ended

    def read(self, *codes):
        """The next line, which begins so, or ends the session as it may."""
        line = self.caller.line()
        if self.may_end and line in (SERVICE_ENDS, ""):
            raise Ended
        assert line.startswith(codes), (line, codes)
        return line

    def next_name(self):
        self.sent += 1
        return "%d.%d" % (self.number, self.sent)

    def step(self):
        self.chance.choice((self.post, self.post, self.post, self.post_at_once, self.post_behind, self.post_and_ask, self.post_again,
                            self.post_elsewhere, self.ask, self.ask_for_group))()

    def note(self, name):
        """Reads how a post was answered that might be taken."""
        self.unknown.add(name)
        line = self.read(ACCEPTED, REFUSED)
        self.unknown.remove(name)
        if line.startswith(ACCEPTED):
            self.accepted.append(name)
        else:
            self.refused.add(name)

    def post(self):
        """Posts, and waits for each reply."""
        self.doing = "post"
        self.caller.send(b"POST\r\n")
        self.read(SEND)
        name = self.next_name()
        self.unknown.add(name)
        self.caller.send(article(name))
        self.note(name)

    def post_at_once(self):
        """Sends line and article in one piece."""
        self.doing = "post at once"
        name = self.next_name()
        self.unknown.add(name)
        self.caller.send(b"POST\r\n" + article(name))
        self.read(SEND)
        self.note(name)

    def post_behind(self):
        """Sends the next line before the article is answered."""
        self.doing = "post behind"
        name, next_name = self.next_name(), self.next_name()
        self.caller.send(b"POST\r\n")
        self.read(SEND)
        self.unknown |= {name, next_name}
        self.caller.send(article(name))
        self.caller.send(b"POST\r\n")
        self.caller.send(article(next_name))
        self.note(name)
        self.read(SEND)
        self.note(next_name)

    def post_and_ask(self):
        self.doing = "post and ask"
        name = self.next_name()
        self.unknown.add(name)
        self.caller.send(b"GROUP x.a\r\nPOST\r\n" + article(name) + b"DATE\r\nSTAT " + message_id(name).encode() + b"\r\n")
        self.read("211 ")
        self.read(SEND)
        self.note(name)
        self.read("111 ")
        self.read("223 " if name in self.accepted else "430 ")

    def post_again(self):
        """An id that is there is refused."""
        self.doing = "post again"
        if not self.accepted:
            return self.post()
        self.caller.send(b"POST\r\n")
        self.read(SEND)
        self.caller.send(article(self.chance.choice(self.accepted)))
        self.read(REFUSED)

    def post_elsewhere(self):
        self.doing = "post elsewhere"
        self.caller.send(b"POST\r\n")
        self.read(SEND)
        self.caller.send(article(self.next_name()).replace(b"x.a", b"x.c"))
        self.read(REFUSED)

    def ask(self):
        self.doing = "ask"
        self.caller.send(b"DATE\r\n" * self.chance.randint(1, 4))
        self.read("111 ")
        self.drain("111 ")

    def drain(self, code):
        self.caller.send(b"MODE READER\r\n")
        while not self.read(code, "200 ").startswith("200 "):
            pass

    def ask_for_group(self):
        self.doing = "ask for the group"
        self.caller.send(b"GROUP x.a\r\n")
        self.read("211 ")

    def end(self):
        self.chance.choice((self.quit, self.half_close, self.quit_behind, self.reset, self.leave))()

    def quit(self):
        self.doing = "quit"
        self.caller.send(b"QUIT\r\n")
        self.read(BYE)
        assert self.caller.has_ended()

    def quit_behind(self):
        self.doing = "quit behind a post"
        name = self.next_name()
        self.unknown.add(name)
        self.caller.send(b"POST\r\n" + article(name) + b"QUIT\r\n")
        self.read(SEND)
        self.note(name)
        self.read(BYE)
        assert self.caller.has_ended()

    def half_close(self):
        """Ends its side behind an article, and gets the reply all the same."""
        self.doing = "half close"
        name = self.next_name()
        self.caller.send(b"POST\r\n")
        self.read(SEND)
        self.unknown.add(name)
        self.caller.send(article(name))
        self.caller.socket.shutdown(socket.SHUT_WR)
        self.note(name)
        assert self.caller.has_ended()

    def reset(self):
        """Resets its socket while a post is under way."""
        self.doing = "reset"
        name = self.next_name()
        self.caller.send(b"POST\r\n")
        self.read(SEND)
        self.unknown.add(name)
        self.caller.send(article(name))
        self.caller.socket.setsockopt(socket.SOL_SOCKET, socket.SO_LINGER, RESET)

    def leave(self):
        self.doing = "leave"


def play_round(program, directory, seed):
    """One round. Answers how many posts were taken."""
    chance = random.Random(seed)
    kind = chance.choice(("quiet", "quiet", "full", "full", "stop", "fault"))
    volume = Volume(program, directory, BLOCKS, SMALL if kind == "full" else LARGE)
    volume.make_group()
    count, may_end = chance.randint(FEWEST, MOST), kind in ("stop", "fault")
    with volume.serve(words=ALL_FROM_ONE) as server:
        sessions = [Session(number, server.port, random.Random(chance.random()), chance.randint(1, STEPS), may_end)
                    for number in range(count)]
        threads = [threading.Thread(target=session.play, daemon=True) for session in sessions]
        for thread in threads:
            thread.start()
        if may_end:
            threading.Event().wait(chance.random() * 0.2)
            server.have_writes_fail() if kind == "fault" else server.order("stop")
        for thread in threads:
            thread.join()
        check([it.failure for it in sessions if it.failure])
        if kind not in ("stop", "fault"):
            assert server.order("stop") == "stopped"
        if kind != "fault":
            assert server.end() == (0, ""), kind
        server.kill()
    return check_spool(volume, sessions)


def check(failures):
    assert not failures, failures


def check_spool(volume, sessions):
    """What the volume holds is what was acknowledged, in the order of each session, and perhaps what was not answered."""
    held = collections.defaultdict(list)
    for line in volume.dump():
        for name in ID.findall(line):
            held[int(name.split(".")[0])].append(name)
    for session in sessions:
        names = held[session.number]
        assert len(set(names)) == len(names), ("twice", names)
        assert names == sorted(names, key=lambda name: int(name.split(".")[1])), ("out of order", names)
        lost = set(session.accepted) - set(names)
        assert not lost, ("lost", session.number, lost)
        assert not session.refused & set(names), ("refused and there", session.number)
        assert set(names) <= set(session.accepted) | session.unknown, ("nobody posted it", names)
    return sum(map(len, held.values()))


def play_rounds(volume, rounds):
    first, taken = int(os.environ.get("NEWSD_SEED", FIRST_SEED)), 0
    directory = os.path.dirname(volume.path)
    for seed in range(first, first + int(os.environ.get("NEWSD_ROUNDS", rounds))):
        room = os.path.join(directory, str(seed))
        os.mkdir(room)
        try:
            taken += play_round(volume.program, room, seed)
        except BaseException:
            print("  seed %d" % seed, flush=True)
            raise
        os.remove(os.path.join(room, "volume"))
        os.rmdir(room)
    print("  %d posts were taken" % taken, flush=True)


def posts_are_answered_once_and_in_order(volume):
    """Some rounds."""
    play_rounds(volume, FEW_ROUNDS)


def two_thousand_rounds(volume):
    """Many rounds: they take some forty minutes."""
    signal.alarm(SECONDS_OF_MANY)
    play_rounds(volume, MANY_ROUNDS)


def a_full_volume_answers_each_post(volume):
    """Callers that wait for each reply post until long after the volume is full, and none of them waits in vain."""
    small = volume.another("small", blocks=BLOCKS, inodes=SMALL)
    small.make_group()
    answers = collections.Counter()

    def post_all(number, port):
        with Caller(port, seconds=PATIENCE) as caller:
            assert caller.greeting == GREETING, caller.greeting
            for sent in range(POSTS_OF_EACH):
                answers[caller.post(article("%d.%d" % (number, sent)))[:4]] += 1

    with small.serve(words=ALL_FROM_ONE) as server:
        side_by_side(*(lambda number=number: post_all(number, server.port) for number in range(MOST)))
        assert server.order("stop") == "stopped"
        assert server.end() == (0, "")
    assert sum(answers.values()) == MOST * POSTS_OF_EACH and set(answers) == {ACCEPTED, REFUSED}, answers
    assert len(ID.findall("".join(small.dump()))) == answers[ACCEPTED], answers


def who_takes_nothing_stops_no_post(volume):
    """A caller asks for more than its socket holds, posts in the same piece, and reads nothing. Others' posts are answered."""
    volume.make_group()
    with volume.serve(words=ALL_FROM_ONE) as server:
        with server.call() as caller, server.call() as silent:
            assert caller.post(long_article("long", LONG)).startswith(ACCEPTED)
            question = b"ARTICLE " + message_id("long").encode() + b"\r\n"
            silent.send(question * QUESTIONS + b"POST\r\n" + article("silent"))
            for number in range(OTHERS):
                started = time.monotonic()
                assert caller.post(article(number)).startswith(ACCEPTED)
                took = time.monotonic() - started
                assert took < SECONDS_OF_A_POST, took


TESTS = [posts_are_answered_once_and_in_order, a_full_volume_answers_each_post, who_takes_nothing_stops_no_post]

# played where they are named
LONG_ONES = [two_thousand_rounds]

if __name__ == "__main__":
    sys.exit(main(TESTS, LONG_ONES, is_timed=True))
