#!/usr/bin/env python3
"""System tests of contrib/haproxy.cfg and contrib/feed: several servers behind HAProxy, which are fed from one. machines.py NEWSD [NAME..]"""
import contextlib
import os
import re
import shutil
import subprocess
import sys
import threading
import time

from newsd import GREETING, GROUP, SECONDS, Caller, article, end_with_parent, free_port, message_id, wait_until
from operating import TOP, place_of, read, write
from playing import Skipped, main
from xover import LOOPBACK, Relaying

SETTINGS, FEED = (os.path.join(TOP, "contrib", name) for name in ("haproxy.cfg", "feed"))
NAMES = ("first", "second", "third")
POSTERS, READERS, ARTICLES = 4, 3, 30
BATCH = re.compile(rb"#! rnews (\d+)\n")


class Machine:
    """A server that may be killed and started again, at the same addresses."""

    def __init__(self, volume, status):
        self.volume, self.proxied, self.fed, self.server = volume, free_port(), free_port(), None
        for name in (GROUP, "x.b"):
            volume.run("group", volume.path, name, status, "1000000000", "test").check_returncode()
        self.start()

    def start(self):
        words = ["--listen", "%s:%d" % (LOOPBACK, self.fed), "--proxied", "%s:%d" % (LOOPBACK, self.proxied), "--quiet"]
        self.server = self.volume.serve(words=words)

    def restart(self):
        self.server.kill()
        time.sleep(1)
        self.start()

    def articles(self):
        """Its articles by their ids, and how many there are."""
        batch, found, at, count = self.volume.export("--crlf"), {}, 0, 0
        while at < len(batch):
            line = BATCH.match(batch, at)
            text = batch[line.end():line.end() + int(line[1])]
            found[re.search(rb"^Message-ID: (\S+)", text, re.MULTILINE)[1].decode()] = text
            at, count = line.end() + len(text), count + 1
        return found, count


class Proxy:
    """HAProxy by contrib/haproxy.cfg, with the places of the test."""

    def __init__(self, place, machines):
        self.reading, self.posting = free_port(), free_port()
        settings = read(SETTINGS)
        changed = [(":::1190 v4v6", "%s:%d" % (LOOPBACK, self.posting)), (":::119 v4v6", "%s:%d" % (LOOPBACK, self.reading))]
        changed += [("127.0.0.1:%d" % (1563 + at), "%s:%d" % (LOOPBACK, it.proxied)) for at, it in enumerate(machines)]
        for before, after in changed:
            assert before in settings, before
            settings = settings.replace(before, after)
        path = os.path.join(place, "haproxy.cfg")
        write(path, settings)
        self.process = subprocess.Popen(["haproxy", "-db", "-q", "-f", path], stdin=subprocess.DEVNULL, stdout=subprocess.DEVNULL,
                                        stderr=subprocess.DEVNULL, preexec_fn=end_with_parent)

    def __enter__(self):
        return self

    def __exit__(self, *_):
        self.process.kill()
        self.process.wait(SECONDS)


def texts(poster):
    """What a poster posts: articles of one group, of the other, and of both."""
    for number in range(1000 * poster, 1000 * poster + ARTICLES):
        groups = (b"x.a", b"x.b", b"x.b,x.a")[number % 3]
        yield number, article(number, body="..\r\nhi").replace(b"Newsgroups: x.a", b"Newsgroups: " + groups)


def post_all(port, poster, acknowledged):
    """Posts one after the other. What isn't answered is posted again, until it is there."""
    for number, text in texts(poster):
        wait_until(lambda one=number, its=text: is_posted(port, one, its), SECONDS)
        acknowledged.append(message_id(number))


def is_posted(port, number, text):
    """Whether an article is there, which is posted where it isn't. A try before may have been taken, without an answer."""
    with contextlib.suppress(OSError), Caller(port, seconds=5) as caller:
        return caller.greeting == GREETING and (caller.ask("STAT " + message_id(number)).startswith("223 ")
                                                or caller.post(text) == "240 Article received")
    return False


def read_on(port, source, is_over, served):
    """Reads by connections of its own, and notes who greets."""
    while not is_over.is_set():
        with contextlib.suppress(OSError), Caller(port, seconds=5, source=source) as caller:
            if caller.ask("GROUP " + GROUP).startswith("211 "):
                served.append((time.monotonic(), caller.greeting))
        time.sleep(0.1)


def feed(relay, machine, folder):
    """Whether all that is new was carried."""
    words = [FEED, "%s:%d" % (LOOPBACK, relay.port), "%s:%d" % (LOOPBACK, machine.fed), folder, GROUP, "x.b"]
    return subprocess.run(words, stdin=subprocess.DEVNULL, capture_output=True, timeout=SECONDS).returncode == 0


def feed_on(relay, machine, folder, is_over):
    while not is_over.is_set():
        feed(relay, machine, folder)
        time.sleep(0.5)


def needed(*programs):
    for program in programs:
        if shutil.which(program) is None:
            raise Skipped("%s isn't installed" % program)


def three_machines(volume):
    """The first one is posted to. The others take what is carried, and no posts."""
    return [Machine(volume, "y"), *(Machine(volume.another(name, host=name + ".example"), "n") for name in NAMES[1:])]


def no_article_is_missing_or_doubled(volume):
    """Of three servers behind HAProxy each is killed while it is posted to and read. In the end each has all that was acknowledged, once."""
    needed("haproxy", "suck")
    place = place_of(volume)
    machines, acknowledged, served, is_over = three_machines(volume), [], [], threading.Event()
    folders = [os.path.join(place, "fed-" + name) for name in NAMES[1:]]
    with Proxy(place, machines) as proxy, Relaying(machines[0].proxied, "--proxy") as relay, contextlib.ExitStack() as stack:
        for machine in machines:
            stack.callback(lambda it=machine: it.server.kill())
        others = []
        stack.callback(lambda: [is_over.set(), *(it.join(2 * SECONDS) for it in others)])
        wait_until(lambda: is_greeted(proxy.posting) and is_greeted(proxy.reading), SECONDS)
        posting = [threading.Thread(target=post_all, args=(proxy.posting, at + 1, acknowledged), daemon=True) for at in range(POSTERS)]
        others += [threading.Thread(target=read_on, args=(proxy.reading, "127.0.0.%d" % (at + 2), is_over, served), daemon=True) for at in range(READERS)]
        others += [threading.Thread(target=feed_on, args=(relay, *fed, is_over), daemon=True) for fed in zip(machines[1:], folders)]
        for thread in posting + others:
            thread.start()
        for machine in machines[1:] + machines[:1]:
            time.sleep(2)
            machine.restart()
        for thread in posting:
            thread.join(4 * SECONDS)
        wanted = {message_id(number) for poster in range(POSTERS) for number, _ in texts(poster + 1)}
        assert set(acknowledged) == wanted and len(acknowledged) == len(wanted), len(acknowledged)
        # readers go on while a server is away
        last = time.monotonic()
        wait_until(lambda: served and served[-1][0] > last, SECONDS)
        behind = seconds_behind(proxy, machines[1])
        print("  the second server was %.1f s behind the first" % behind, flush=True)
        is_over.set()
        for thread in others:
            thread.join(2 * SECONDS)
        for machine, folder in zip(machines[1:], folders):
            wait_until(lambda fed=(machine, folder): feed(relay, *fed), 2 * SECONDS)
    first, count = machines[0].articles()
    assert set(first) == wanted | {message_id(1)} and count == len(first), count
    for machine in machines[1:]:
        assert machine.articles() == (first, count), machine.articles()[1]


def is_greeted(port):
    with contextlib.suppress(OSError), Caller(port, seconds=2) as caller:
        return caller.greeting.startswith("200 ")
    return False


def seconds_behind(proxy, machine):
    """How long after its reply an article is on a server that is fed."""
    wait_until(lambda: is_posted(proxy.posting, 1, article(1)), SECONDS)
    began = time.monotonic()
    with Caller(machine.fed) as caller:
        assert caller.post(article(2)) == "441 Article not accepted"
        wait_until(lambda: caller.ask("STAT " + message_id(1)).startswith("223 "), SECONDS)
    return time.monotonic() - began


def what_was_not_carried_is_offered_again(volume):
    """To a server that isn't there, and to one of which nobody knows what it has already."""
    needed("suck")
    one, other = volume, volume.another("other", host="other.example")
    one.make_group()
    other.make_group()
    folder, fed = os.path.join(place_of(volume), "fed"), free_port()
    with one.serve() as server, Relaying(server.port) as relay:
        with server.call() as caller:
            for number in range(1, 4):
                assert caller.post(article(number)) == "240 Article received"
        words = [FEED, "%s:%d" % (LOOPBACK, relay.port), "%s:%d" % (LOOPBACK, fed), folder, GROUP]
        done = subprocess.run(words, capture_output=True, text=True, stdin=subprocess.DEVNULL, timeout=SECONDS)
        assert done.returncode == 1 and done.stderr.startswith("feed: handed 0 of 3 articles to 127.0.0.1:%d: " % fed), done
        with other.serve(words=["--listen", "%s:%d" % (LOOPBACK, fed)]) as second, second.call() as caller:
            for more in ((), (4, 5)):
                with server.call() as poster:
                    for number in more:
                        assert poster.post(article(number)) == "240 Article received"
                for _ in range(2):
                    done = subprocess.run(words, capture_output=True, text=True, stdin=subprocess.DEVNULL, timeout=SECONDS)
                    assert (done.returncode, done.stderr) == (0, ""), done
                assert caller.ask("GROUP " + GROUP) == "211 %d 1 %d %s" % (3 + len(more), 3 + len(more), GROUP)
            # the numbers are lost: all is offered again
            shutil.rmtree(folder)
            done = subprocess.run(words, capture_output=True, text=True, stdin=subprocess.DEVNULL, timeout=SECONDS)
            assert (done.returncode, done.stderr) == (0, "") and caller.ask("GROUP " + GROUP) == "211 5 1 5 " + GROUP, done
    done = subprocess.run(words[:3], capture_output=True, text=True, timeout=SECONDS)
    assert (done.returncode, done.stderr) == (1, "feed: the words are: feed FROM TO FOLDER GROUP..\n"), done
    assert other.export() == one.export()


TESTS = [
    no_article_is_missing_or_doubled,
    what_was_not_carried_is_offered_again,
]


if __name__ == "__main__":
    sys.exit(main(TESTS))
