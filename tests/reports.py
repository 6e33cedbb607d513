#!/usr/bin/env python3
"""System tests of contrib/report, which tells a day of a server from its log. reports.py NEWSD [NAME..]"""
import datetime
import json
import os
import re
import subprocess
import sys

from newsd import SECONDS, SERVICE_ENDS, Caller, article, free_port
from operating import TOP, place_of, write
from playing import main

REPORT = os.path.join(TOP, "contrib", "report")
# each event, of a day and of those beside it; and what stands between, as what an operator was answered
WRITTEN = """
time=2026-11-28T23:59:59Z event=begin peer=127.0.0.1:1 session=1
time=2026-11-29T00:00:00Z event=begin peer=127.0.0.1:2 session=2
host news.example format 3
time=2026-11-29T00:00:01Z event=post session=2 id=<a=b@c.example> serial=4711
time=2026-11-29T00:00:02Z event=refused session=2 cause=repeat
time=2026-11-29T00:00:03Z event=refused session=2 cause=full
time=2026-11-29T00:00:03Z event=refused session=2 cause=repeat
time=2026-11-29T00:00:04Z event=end peer=127.0.0.1:1 session=1 messages=1 taken=0 refused=0 in=10 out=100 why=closed
time=2026-11-29T00:00:05Z event=end peer=127.0.0.1:2 session=2 messages=14 taken=1 refused=3 in=5120 out=20480 why=quit
time=2026-11-29T00:00:06Z event=end peer=[2001:db8::1]:119 session=3 messages=0 taken=0 refused=0 in=0 out=40 why=quit
time=2026-11-29T00:00:07Z event=refused peer=192.0.2.1:3 why=access times=7
time=2026-11-29T00:00:08Z event=refused peer=192.0.2.1:3 why=access times=2
time=2026-11-29T00:00:08Z event=refused peer=192.0.2.2:3 why=sessions times=1
time=2026-11-29T00:00:09Z event=opening read=12 of=32 unit=MiB
time=2026-11-29T00:00:09Z event=full blocks=90 of=100
newsd: E1 Fault: I/O error
time=2026-11-29T23:59:59Z event=fault error=io
time=2026-11-29T23:59:59Z event=halted
time=2026-11-29T23:59:59Z event=lost lines=3
time=2026-11-29T23:59:59Z event=end peer=127.0.0.1:2 ses
time=2026-11-29T23:5
time=2026-11-29T23:59:59Z event=refused peer=192.0.2.2:3 why=sessions times=many
time=2026-11-30T00:00:00Z event=post session=2 id=<2@c.example> serial=4712
"""[1:]
TEXT = """
newsd on 2026-11-29 (UTC)
sessions     1 begun, 3 ended (quit 2, closed 1)
octets       5130 in, 20620 out
posts        1 taken, 3 refused (repeat 2, full 1)
callers      2 addresses
    127.0.0.1: sessions 2, in 5130, out 20580
    [2001:db8::1]: sessions 1, in 0, out 40
turned away  10 (access 9, sessions 1)
faults       4
    00:00:09 full blocks=90 of=100
    23:59:59 fault error=io
    23:59:59 halted
    23:59:59 lost lines=3
unread       3 lines of the log
"""[1:]
JSON = {
    "day": "2026-11-29",
    "sessions": {"begun": 1, "ended": 3, "why": {"quit": 2, "closed": 1}},
    "callers": {"addresses": 2, "most": [{"address": "127.0.0.1", "sessions": 2, "in": 5130, "out": 20580},
                                         {"address": "[2001:db8::1]", "sessions": 1, "in": 0, "out": 40}]},
    "octets": {"in": 5130, "out": 20620},
    "posts": {"taken": 1, "refused": 3, "causes": {"repeat": 2, "full": 1}},
    "groups": None,
    "turned_away": {"access": 9, "sessions": 1},
    "faults": [{"time": "00:00:09", "event": "full", "blocks": "90", "of": "100"}, {"time": "23:59:59", "event": "fault", "error": "io"},
               {"time": "23:59:59", "event": "halted"}, {"time": "23:59:59", "event": "lost", "lines": "3"}],
    "unread": 3,
}


def report(*words, given=""):
    return subprocess.run([sys.executable, "-B", REPORT, *words], input=given, capture_output=True, text=True, timeout=SECONDS)


def told(*words, given=""):
    done = report(*words, given=given)
    assert (done.returncode, done.stderr) == (0, ""), done
    return done.stdout


def today():
    return datetime.datetime.now(datetime.timezone.utc).strftime("%Y-%m-%d")


def moved_to(day, text):
    """A text about 2026-11-29 and the days beside it, which is about this day and those beside it."""
    days = day - datetime.date(2026, 11, 29)
    return re.sub(r"2026-11-\d\d", lambda found: str(datetime.date.fromisoformat(found[0]) + days), text)


def a_written_log_is_summed_up(volume):
    """Of one day, from standard input and from files. Without a day it is yesterday."""
    log = os.path.join(place_of(volume), "log")
    write(log, WRITTEN)
    for words, given in (((), WRITTEN), ((log,), ""), ((log, os.devnull), "")):
        assert told("--day", "2026-11-29", *words, given=given) == TEXT, words
        assert json.loads(told("--day", "2026-11-29", "--json", *words, given=given)) == JSON, words
    yesterday = datetime.datetime.now(datetime.timezone.utc).date() - datetime.timedelta(days=1)
    assert told(given=moved_to(yesterday, WRITTEN)) == moved_to(yesterday, TEXT)
    empty = json.loads(told("--json", "--day", "2001-01-01", log))
    assert empty["sessions"]["begun"] == empty["posts"]["taken"] == empty["callers"]["addresses"] == 0 and empty["faults"] == [], empty


def the_log_of_a_server_is_summed_up(volume):
    """The server tells the groups. A group that isn't there counts for nothing, and neither does an article that was taken out."""
    volume.make_group()
    crossposted = article(2).replace(b"Newsgroups: x.a", b"Newsgroups: x.a,\r\n x.b,x.none")
    day = today()
    with volume.serve(words=["--most-from", "1"]) as server:
        assert server.order("group x.b y 1000000000 test") == "2"
        with server.call() as caller:
            late = Caller(server.port)
            assert late.greeting == SERVICE_ENDS
            replies = [caller.post(text) for text in (article(1), crossposted, article(2), article(3), b"Subject: one\r\n.\r\n")]
            assert [it[:3] for it in replies] == ["240", "240", "441", "240", "441"], replies
            assert caller.ask("QUIT") == "205 Bye" and caller.has_ended()
        assert server.order("expire x.a 1").isdecimal()
        # callers that got no session are told of once a second
        lines = []
        while not all(any(event in it for it in lines) for event in ("event=end", "why=address")):
            lines.append(server.process.stderr.readline().decode())
        words = ["--json", "--ask", "127.0.0.1:%d" % server.port]
        found = json.loads(told("--day", day, *words, given="".join(lines)))
        end = dict(field.split("=", 1) for field in next(it for it in lines if "event=end" in it).split())
        assert found["sessions"] == {"begun": 1, "ended": 1, "why": {"quit": 1}}, found
        assert found["callers"] == {"addresses": 1, "most": [{"address": "127.0.0.1", "sessions": 1, "in": int(end["in"]), "out": int(end["out"])}]}
        assert found["posts"] == {"taken": 3, "refused": 2, "causes": {"noend": 1, "repeat": 1}}, found
        assert found["groups"] == {"x.a": 2, "x.b": 1} and found["turned_away"] == {"address": 1}, found
        assert (found["faults"], found["unread"]) == ([], 0), found
        assert "\ngroups       2 posted to\n    x.a: 2\n    x.b: 1\n" in told("--day", day, *words[1:], given="".join(lines))


def what_cannot_be_read_is_told(volume):
    nobody = free_port()
    for words, status, said in (
        (("--ask", "127.0.0.1:%d" % nobody), 1, "report: 127.0.0.1:%d: Connection refused\n" % nobody),
        ((volume.path + ".none",), 1, "report: [Errno 2] No such file or directory: '%s.none'\n" % volume.path),
        (("--day", "2026-02-30"), 2, "'2026-02-30' is no day, as in 2026-11-30\n"),
        (("--ask", "127.0.0.1"), 2, "'127.0.0.1' is no ADDRESS:PORT\n"),
        (("--some",), 2, "unrecognized arguments: --some\n"),
    ):
        done = report(*words)
        assert (done.returncode, done.stdout) == (status, "") and done.stderr.endswith(said), (words, done)


TESTS = [
    a_written_log_is_summed_up,
    the_log_of_a_server_is_summed_up,
    what_cannot_be_read_is_told,
]


if __name__ == "__main__":
    sys.exit(main(TESTS))
