#!/usr/bin/env python3
"""System tests of `newsd status`, and of the lines `status`, `sessions`, `drop` and `stop` of an operator. orders.py NEWSD [NAME..]"""
import json
import os
import re
import signal
import socket
import struct
import subprocess
import sys
import threading
import time

from findings import GROUP_FILE, Image
from logs import Log
from newsd import (
    FAULT, GREETING, GROUP, HOST, NO_SUPERBLOCK, SECONDS, SERVICE_ENDS, Caller, article, end_with_parent, free_port, message_id, octets,
    settled_octets, wait_until)
from playing import Skipped, main

# the octets of an overview up to which its group takes articles
ROOM = 4294950912
BLOCK = 4096
# the octets of a group's file before its description
GROUP_HEAD = 17
# the octets of the pack that an article's file takes beside its content
HEAD = 17
POSTERS = 16
# a server that is told to stop may wait so long for what is under way
SECONDS_OF_A_STOP = 10
NONE = b"430 No such article\r\n"
# how long nobody calls a server whose device has failed
SECONDS_WITHOUT_A_CALLER = 1
# callers that have sent so many lines when the server is told to stop: more than one read takes, and less than a socket holds
CALLERS_AT_A_STOP = 8
LINES_AT_A_STOP = 2500
# the number of a user who may do nothing
NOBODY = 65534
LINE = re.compile(r"host (\S+) format (\d+) blocks (\d+) of (\d+) inodes (\d+) of (\d+) sessions (\d+) idle (\d+) sending (\d+) held (\d+)"
                  r" accepted (\d+) durable (\d+) batches (\d+) syncs (\d+)")
NAMES = "host format blocks blocks_all inodes inodes_all sessions idle sending held accepted durable batches syncs".split()


def the_status_is_that_of_the_files(volume):
    """Of an empty volume, one with articles, and one from which articles were taken out."""
    assert_status(volume)
    for name, status in ((GROUP, "y"), ("x.b", "n"), ("a.group.with.a.longer.name", "y")):
        volume.run("group", volume.path, name, status, "1000000000", "test").check_returncode()
    assert_status(volume)
    with volume.serve() as server, server.call() as caller:
        for number in range(120):
            names = b"x.a,x.b" if number % 2 else b"x.a"
            sent = article(number, subject="s" * 400).replace(b"Newsgroups: x.a", b"Newsgroups: " + names)
            assert caller.ask("IHAVE " + message_id(number)).startswith("335 ")
            caller.send(sent)
            assert caller.line() == "235 Article transferred"
    assert_status(volume)
    volume.expire(100)
    volume.expire(60, "x.b")
    seen = assert_status(volume)
    assert [(it["low"], it["high"], it["count"]) for it in seen["groups"]] == [(101, 120, 20), (61, 60, 0), (1, 0, 0)], seen["groups"]
    assert seen["changes"] == 125


def a_full_volume_has_a_status(volume):
    small = volume.another("small", blocks=1024, inodes=64)
    small.make_group()
    with small.serve() as server, server.call() as caller:
        replies = [caller.post(article(number)) for number in range(64)]
    assert replies == ["240 Article received"] * 61 + ["441 Article not accepted"] * 3, replies
    seen = assert_status(small)
    assert seen["inodes"] == {"all": 64, "used": 64, "free": 0} and seen["changes"] == 62, seen


def assert_status(volume):
    """Both forms say what the files of the volume, `dump` and `LIST` say. Answers the status as a value."""
    volume.settle()
    changes = [line.split() for line in volume.dump()[1:]]
    names = [line[2] for line in changes if line[1] == "group"]
    done = volume.run("status", volume.path, "--json")
    assert (done.returncode, done.stderr) == (0, b"") and done.stdout.endswith(b"}\n") and done.stdout.count(b"\n") == 1, done
    seen = json.loads(done.stdout)
    used = Counted(volume.path)
    listed = listing(volume)
    wanted = {
        "host": HOST,
        "format": 3,
        "blocks": {"all": used.blocks, "used": used.blocks_used, "free": used.blocks - used.blocks_used},
        "inodes": {"all": used.inodes, "used": used.inodes_used, "free": used.inodes - used.inodes_used},
        "changes": len(changes),
        "gone": gone_of(changes, used.sizes),
        "groups": [{"name": name, **listed[name], "overview": {"used": used.sizes["o." + name], "room": ROOM}} for name in names],
    }
    assert seen == wanted, (seen, wanted)
    # without blanks, and with rising names
    assert done.stdout.decode() == json.dumps(wanted, separators=(",", ":"), sort_keys=True) + "\n", done.stdout
    shown = volume.run("status", volume.path)
    assert (shown.returncode, shown.stderr, shown.stdout.decode()) == (0, b"", form_of(wanted)), (shown, form_of(wanted))
    return seen


def gone_of(changes, sizes):
    """What is gone, by the lines of `dump` and the sizes of the files of articles (docs/FORMATS.md)."""
    filed, lows, gone, octets = {}, {}, {"articles": 0, "texts": 0, "blocks": 0}, 0
    for words in changes:
        if words[1] == "article":
            for name in words[3].split(","):
                filed[name] = filed.get(name, 0) + 1
                words.append((name, filed[name]))
        if words[1] == "expire":
            lows[words[2]] = int(words[3]) + 1
    for serial, _, own_id, names, *places in (words for words in changes if words[1] == "article"):
        if all(number < lows.get(name, 1) for name, number in places):
            size = sizes["a.%010d" % int(serial)] - 21 - sum(1 + len(name) for name in names.split(","))
            husk = len("Path: -Date: -From: -Subject: -Message-ID: Newsgroups: ") + len(own_id) + len(names) + 14
            gone["articles"] += 1
            gone["texts"] += husk < size
            octets += max(0, size - husk - HEAD)
    gone["blocks"] = octets // BLOCK
    return gone


class Counted:
    """What the blocks of a volume hold, by docs/FORMATS.md. No segment is open, since a command has opened the volume."""

    def __init__(self, path):
        image = octets(path)
        self.blocks, segments, self.inodes = struct.unpack_from("<III", image, 12)
        assert not Image(path).open
        home = (1 + 514 * segments) * BLOCK
        self.blocks_used = sum(bin(octet).count("1") for octet in image[home:home + 2 * BLOCK])
        inodes = home + 2 * BLOCK
        slots = inodes + 64 * self.inodes
        self.sizes = {}
        for number in range(self.inodes):
            kind, size = struct.unpack_from("<IQ", image, inodes + 64 * number)
            if kind:
                slot = slots + 64 * number
                self.sizes[image[slot + 1:slot + 1 + image[slot]].decode()] = size
        self.inodes_used = len(self.sizes)
        self.sizes.update((name.decode(), size) for name, _, size in Image(path).packed())


def listing(volume):
    """What clients are told of each group."""
    found = {}
    with volume.serve() as server, server.call() as caller:
        assert caller.ask("LIST ACTIVE").startswith("215 ")
        lines = iter(caller.line, ".")
        for name, high, low, status in [line.split() for line in lines]:
            found[name] = {"low": int(low), "high": int(high), "status": status}
        for name, known in found.items():
            count = int(caller.ask("GROUP " + name).split()[1])
            found[name] = dict(known, count=count)
    # opened again, so that no segment is open
    volume.settle()
    return found


def form_of(status):
    """The form for a person."""
    def share(of):
        return "%(all)d: %(used)d used, %(free)d free" % of + ", %d %% used" % (100 * of["used"] // of["all"])

    facts = [("host", status["host"]), ("format", status["format"]), ("blocks", share(status["blocks"])),
             ("inodes", share(status["inodes"])), ("changes", status["changes"]),
             ("gone", "%(articles)d articles; of %(texts)d a renewal gives back %(blocks)d blocks or more" % status["gone"])]
    lines = ["%-10s%s" % fact for fact in facts]
    if status["groups"]:
        rows = [("group", "low", "high", "count", "status", "overview")]
        for it in status["groups"]:
            rows.append((it["name"], str(it["low"]), str(it["high"]), str(it["count"]), it["status"],
                         "%d %%" % (100 * it["overview"]["used"] // ROOM)))
        name, low, high, count, state, overview = (max(len(row[at]) for row in rows) for at in range(6))
        form = "%%-%ds   %%%ds  %%%ds  %%%ds  %%-%ds  %%%ds" % (name, low, high, count, state, overview)
        lines += ["", *(form % row for row in rows)]
    return "\n".join(lines) + "\n"


def each_command_names_the_process_that_has_the_volume(volume):
    volume.make_group()
    words = (["status", volume.path], ["status", volume.path, "--json"], ["dump", volume.path], ["export", volume.path],
             ["import", volume.path], ["group", volume.path, "x.b", "y", "1000000000", "test"], ["expire", volume.path, GROUP, "1"],
             ["serve", volume.path, "--port", str(free_port())], ["format", volume.path, "--host", HOST])
    with volume.serve() as server:
        for each in words:
            assert_in_use(volume, each, server.process.pid)
    importing = subprocess.Popen([volume.program, "import", volume.path], stdin=subprocess.PIPE, stdout=subprocess.PIPE,
                                 stderr=subprocess.PIPE, preexec_fn=end_with_parent)
    with importing:
        wait_until(lambda: has_lock(importing.pid))
        assert_in_use(volume, ["status", volume.path], importing.pid)
        importing.stdin.close()
        assert importing.wait(SECONDS) == 0
    assert volume.dump() == ["spool 1", "1 group x.a y"]


def has_lock(process):
    """Whether a process has locked a file. A command that asked for the volume might take the lock before that process does."""
    folder = "/proc/%d/fdinfo" % process
    try:
        for name in os.listdir(folder):
            with open(os.path.join(folder, name)) as file:
                if "\nlock:" in file.read():
                    return True
    except FileNotFoundError:
        pass  # a file was closed meanwhile
    return False


def assert_in_use(volume, words, process):
    said = "newsd: E1 Fault: the volume is in use by process %d\n" % process
    done = volume.run(*words)
    assert (done.returncode, done.stdout, done.stderr.decode()) == (1, b"", said), (words, done)


def what_has_no_status_is_refused(volume):
    directory = os.path.dirname(volume.path)
    with open(directory + "/text", "w") as text:
        text.write("no volume")
    for words, status, said in (
        (["status", directory + "/none"], 1, "E1 Fault: the file isn't there"),
        (["status", directory + "/none", "--json"], 1, "E1 Fault: the file isn't there"),
        (["status", directory + "/text"], 1, NO_SUPERBLOCK),
        (["status"], 2, None),
        (["status", volume.path, "more"], 2, None),
    ):
        done = volume.run(*words)
        assert done.returncode == status and done.stdout == b"", (words, done)
        assert said is None or done.stderr.decode() == "newsd: %s\n" % said, (words, done)


def a_file_that_may_not_be_opened_is_named_so(volume):
    os.chmod(os.path.dirname(volume.path), 0o755)
    os.chmod(volume.path, 0o000)
    words = ["status", volume.path]
    try:
        # root may open each file
        done = volume.run(*words, user=NOBODY) if os.getuid() == 0 else volume.run(*words)
    except PermissionError:
        raise Skipped("the program is not for others to run")
    said = "newsd: E1 Fault: the file can't be opened: permission denied\n"
    assert (done.returncode, done.stdout, done.stderr.decode()) == (1, b"", said), done


def an_operator_asks_for_the_status(volume):
    volume.make_group()
    with volume.serve() as server:
        first = asked(server)
        assert (first["host"], first["format"], first["sessions"], first["accepted"], first["durable"]) == (HOST, 3, 0, 1, 1), first
        callers = [server.call() for _ in range(3)]
        for number in range(20):
            assert callers[number % 3].post(article(number)) == "240 Article received"
        assert server.order("group x.b y 1000000000 test") == "22"
        now = asked(server)
        assert (now["sessions"], now["accepted"], now["durable"]) == (3, 22, 22), now
        # x.a and x.b take three inodes each, and the articles share the pack
        assert (now["inodes"], now["inodes_all"]) == (3 + 1 + 3, 4096), now
        assert now["batches"] - first["batches"] in range(1, 22) and now["syncs"] - first["syncs"] >= 2, (first, now)
        assert first["blocks"] < now["blocks"] <= now["blocks_all"] == 8192, (first, now)
        for caller in callers:
            caller.close()
        wait_until(lambda: asked(server)["sessions"] == 0)
        for line in ("status ", "status now", "Status", "stop now", "stop ", "Stop"):
            assert server.order(line) == "E14 Bad", line
        last = asked(server)
        assert server.order("stop") == "stopped"
        assert server.end() == (0, "")
    seen = json.loads(volume.run("status", volume.path, "--json").stdout)
    assert (seen["blocks"]["used"], seen["inodes"]["used"], seen["changes"]) == (last["blocks"], last["inodes"], 22), (seen, last)


def a_group_of_the_operator_has_a_description(volume):
    """One that shows something. A group that a volume has without one is served as it is."""
    volume.make_group()
    volume.settle()
    image = Image(volume.path)
    described = image.content(GROUP_FILE) + GROUP_HEAD
    assert image.octets[described:][:5] == b"test\0", image.octets[described:][:5]
    image.write([(described, b"    ")])
    with volume.serve() as server, server.call() as caller:
        for line in ("group x.b y 1", "group x.b y 1 ", "group x.b y 1    ", "group x.b y 1 \t", "group x.b y 1 " + 201 * "a"):
            assert server.order(line) == "E14 Bad", line
        assert server.order("group x.b y 1000000000  b ") == "2"
        assert caller.ask("LIST NEWSGROUPS").startswith("215 ")
        assert [caller.line() for _ in range(3)] == ["x.a\t    ", "x.b\t b ", "."]
    assert volume.dump() == ["spool 2", "1 group x.a y", "2 group x.b y"]


def an_operator_sees_the_sessions_and_ends_them(volume):
    volume.make_group()
    with volume.serve() as server:
        log = Log(server.process.stderr)
        assert listed(server) == []
        idle, sending, other = server.call(), server.call(), Caller(server.port, source="127.0.0.2")
        assert idle.post(article(1)) == "240 Article received"
        # an article counts once the next message has come
        date = idle.ask("DATE")
        assert sending.ask("POST").startswith("340 ")
        wait_until(lambda: [it["state"] for it in listed(server)] == ["idle", "sending", "idle"])
        got = sum(len(line + "\r\n") for line in (GREETING, "340 Send article", "240 Article received", date))
        wait_until(lambda: listed(server)[0]["out"] == got)
        one, two, three = listed(server)
        assert (one["messages"], one["taken"], one["refused"], one["in"]) == (3, 1, 0, len(b"POST\r\nDATE\r\n" + article(1))), one
        assert one["peer"] == "127.0.0.1:%d" % idle.socket.getsockname()[1] and three["peer"].startswith("127.0.0.2:"), (one, three)
        assert abs(one["since"] - time.time()) < SECONDS and one["silent"] < SECONDS, one
        now = asked(server)
        assert (now["sessions"], now["idle"], now["sending"], now["held"]) == (3, 2, 1, 0), now
        # by number; that session's article is left out, and its number is gone
        assert server.order("drop %d" % two["session"]) == "dropped 1"
        assert sending.has_ended()
        wait_until(lambda: len(listed(server)) == 2)
        assert server.order("drop %d" % two["session"]) == "E12 NotFound"
        # by address
        assert server.order("drop 127.0.0.2") == "dropped 1" and other.has_ended()
        wait_until(lambda: len(listed(server)) == 1)
        assert server.order("drop 192.0.2.0/24") == "E12 NotFound"
        for line in ("drop", "drop ", "drop x", "drop 1 2", "drop 127.0.0.1:9", "drop -1", "sessions 1", "Sessions"):
            assert server.order(line) == "E14 Bad", line
        assert idle.ask("STAT <1@a.example>").startswith("223 ")
        assert server.order("drop 127.0.0.0/8") == "dropped 1" and idle.has_ended()
        assert {fields["why"] for _, fields in log.wait("end", 3)} == {"dropped"}, log.lines
        # the seats are free again
        wait_until(lambda: asked(server)["sessions"] == 0)
        with server.call() as caller:
            assert caller.ask("STAT <1@a.example>").startswith("223 ")
        assert server.order("stop") == "stopped"


def listed(server):
    """The sessions that a server lists, as names and values."""
    found, line = [], server.order("sessions")
    while line.startswith("session "):
        words = line.split()
        found.append({name: value if name in ("peer", "state") else int(value) for name, value in zip(words[::2], words[1::2])})
        line = server.process.stdout.readline().decode().rstrip("\n")
    assert line == "sessions %d" % len(found), line
    return found


def asked(server):
    """The status that a server answers, as names and values."""
    line = server.order("status")
    found = LINE.fullmatch(line)
    assert found, line
    return {name: value if name == "host" else int(value) for name, value in zip(NAMES, found.groups())}


def a_server_that_is_told_to_stop_ends_in_order(volume):
    """The lines before it are answered first. The volume is free then, and callers are told that the service ends."""
    volume.make_group()
    with volume.serve() as server:
        callers = [server.call() for _ in range(3)]
        assert callers[0].post(article(1)) == "240 Article received"
        callers[1].send(b"POST\r\nPath: half\r\n")
        assert callers[1].line() == "340 Send article"
        server.process.stdin.write(b"group x.b y 1000000000 test\nstop\nstop\nstatus\n")
        server.process.stdin.flush()
        answers = [server.process.stdout.readline().decode() for _ in range(2)]
        assert answers == ["3\n", "stopped\n"], answers
        assert server.end(SECONDS_OF_A_STOP) == (0, "")
        assert all(caller.file.read() in (b"", b"400 Service ends\r\n") for caller in callers)
        with socket.socket() as late:
            assert late.connect_ex(("127.0.0.1", server.port)) != 0
    assert volume.dump() == ["spool 3", "1 group x.a y", "2 article <1@a.example> x.a", "3 group x.b y"]
    with volume.serve() as server, server.call() as caller:
        assert caller.ask("STAT <1@a.example>") == "223 0 <1@a.example>"


class Posters:
    """Callers that post until the server ends."""

    def __init__(self, server, name):
        self.told, self.lock = set(), threading.Lock()
        self.threads = [threading.Thread(target=self.post, args=(server, "%s.%d" % (name, it)), daemon=True) for it in range(POSTERS)]
        for thread in self.threads:
            thread.start()

    def post(self, server, name):
        try:
            with Caller(server.port) as caller:
                if caller.greeting == SERVICE_ENDS:
                    return
                for number in range(100000):
                    reply = caller.post(article("%s.%d" % (name, number)))
                    if reply == "240 Article received":
                        with self.lock:
                            self.told.add(message_id("%s.%d" % (name, number)))
                    else:
                        assert reply in ("", SERVICE_ENDS), reply
                        return
        except OSError:
            pass

    def end(self):
        """The ids of what was acknowledged."""
        for thread in self.threads:
            thread.join(SECONDS)
            assert not thread.is_alive()
        return self.told


def articles_of(volume):
    lines = volume.dump()
    assert lines[0] == "spool %d" % (len(lines) - 1)
    ids = [line.split()[2] for line in lines[1:] if line.split()[1] == "article"]
    assert len(set(ids)) == len(ids)
    return set(ids)


def a_stop_beside_posters_keeps_all_that_was_accepted(volume):
    """What was accepted is committed and answered: the volume holds what was acknowledged, and nothing else."""
    volume.make_group()
    told = set()
    for round_number in range(3):
        with volume.serve() as server:
            posters = Posters(server, "stop%d" % round_number)
            time.sleep(0.3)
            before = asked(server)
            start = time.monotonic()
            assert server.order("stop") == "stopped"
            assert server.end(SECONDS_OF_A_STOP) == (0, "")
            seconds = time.monotonic() - start
            told |= posters.end()
        there = articles_of(volume)
        assert there == told, (len(there), len(told))
        assert len(there) + 1 >= before["accepted"] >= before["durable"], before
        print("  %d told and there, stopped in %.2f s" % (len(told), seconds), flush=True)


def a_signal_beside_posters_loses_nothing_acknowledged(volume):
    volume.make_group()
    told = set()
    for round_number, number in enumerate((signal.SIGTERM, signal.SIGTERM, signal.SIGKILL)):
        with volume.serve() as server:
            posters = Posters(server, "kill%d" % round_number)
            time.sleep(0.3)
            server.process.send_signal(number)
            assert server.process.wait(SECONDS) == -number
            told |= posters.end()
        there = articles_of(volume)
        assert told <= there, (len(there), len(told))
    print("  %d told, %d there" % (len(told), len(there)), flush=True)


def a_stop_lets_the_last_replies_arrive(volume):
    """Callers have sent more than the server reads. It ends their connections after whole replies, and by no reset."""
    volume.make_group()
    with volume.serve() as server:
        callers = [server.call() for _ in range(CALLERS_AT_A_STOP)]
        for caller in callers:
            caller.send(b"STAT <9@a.example>\r\n" * LINES_AT_A_STOP)
        assert server.order("stop") == "stopped"
        replies = [list(caller.file) for caller in callers]
        assert server.end(SECONDS_OF_A_STOP) == (0, "")
        # a line that is answered after the kernel was halted ends its session
        assert all(set(them[:-1]) <= {NONE} and set(them[-1:]) <= {NONE, SERVICE_ENDS.encode() + b"\r\n"} for them in replies), replies
        print("  %s replies of %d" % ([len(them) for them in replies], LINES_AT_A_STOP), flush=True)
        for caller in callers:
            caller.close()


def a_stop_waits_for_no_caller(volume):
    """One reads nothing of a long reply, and one has sent a part of an article."""
    volume.make_group()
    with volume.serve() as server:
        with server.call() as caller:
            for number in range(4):
                assert caller.post(article(number, body="\r\n".join(["x" * 70] * 2800))) == "240 Article received"
        deaf = Caller(server.port, receive_octets=4096)
        deaf.send(b"ARTICLE <1@a.example>\r\n" * 40)
        half = server.call()
        half.send(b"POST\r\n" + article(9)[:100])
        time.sleep(1)
        start = time.monotonic()
        assert server.order("stop") == "stopped"
        assert server.end(SECONDS_OF_A_STOP) == (0, "")
        print("  stopped in %.2f s" % (time.monotonic() - start), flush=True)
        deaf.close()
        half.close()
    assert len(articles_of(volume)) == 4


def an_operator_that_reads_nothing_stops_a_server(volume):
    volume.make_group()
    with volume.serve() as server:
        server.process.stdin.write(b"status\n" * 50 + b"stop\n")
        server.process.stdin.flush()
        status, said = server.end(SECONDS_OF_A_STOP)
        assert (status, said) == (0, ""), (status, said)
        answers = server.process.stdout.read().decode().splitlines()
        assert len(answers) == 51 and answers[-1] == "stopped" and all(LINE.fullmatch(it) for it in answers[:-1]), answers
    volume.dump()


def a_device_that_fails_spoils_a_stop(volume):
    """The change before it can't be committed, so the server ends as after any fault, and waits for no further caller."""
    volume.make_group()
    with volume.serve() as server, server.call() as caller:
        assert caller.post(article(1)) == "240 Article received"
        server.have_writes_fail()
        assert [server.order("group x.b y 1000000000 test\nstop"), server.process.stdout.readline()] == ["E1 Fault", b"E1 Fault\n"]
        assert server.end(SECONDS_OF_A_STOP) == FAULT
        assert caller.file.read() in (b"", b"400 Service ends\r\n")
    assert "<1@a.example>" in articles_of(volume)


def a_stop_ends_a_server_whose_device_has_failed(volume):
    """Until then the server waits for one more caller, and answers its operator. None comes, and at the stop it waits for none."""
    volume.make_group()
    with volume.serve() as server:
        server.have_writes_fail()
        assert server.order("group x.b y 1000000000 test") == "E1 Fault"
        assert server.log().endswith(" event=fault error=toolarge")
        time.sleep(SECONDS_WITHOUT_A_CALLER)
        assert server.order("group x.c y 1000000000 test") == "E4 Halted"
        seen = asked(server)
        assert (seen["sessions"], seen["durable"]) == (0, 1), seen
        start = time.monotonic()
        assert server.order("stop") == "E1 Fault"
        assert server.end(SECONDS_OF_A_STOP) == FAULT
        print("  ended in %.2f s" % (time.monotonic() - start), flush=True)
    assert volume.dump() == ["spool 1", "1 group x.a y"]


def a_stop_needs_no_good_device(volume):
    """Where nothing is left to write, a device that would fail is not asked."""
    volume.make_group()
    with volume.serve() as server, server.call() as caller:
        assert caller.post(article(1)) == "240 Article received"
        settled_octets(volume.path)
        server.have_writes_fail()
        answer = server.order("stop")
        status, said = server.end()
        assert (status, answer, said) in ((0, "stopped", ""), (FAULT[0], "E1 Fault", FAULT[1])), (status, answer, said)
        print("  it ended with status %d" % status, flush=True)
    assert articles_of(volume) == {"<1@a.example>"}


def the_end_of_the_operators_lines_ends_nothing(volume):
    volume.make_group()
    with volume.serve() as server:
        assert server.order("status").startswith("host ")
        server.process.stdin.close()
        time.sleep(0.5)
        with server.call() as caller:
            assert caller.post(article(1)) == "240 Article received"
        server.process.stdin = open(os.devnull, "wb")
    assert articles_of(volume) == {"<1@a.example>"}


TESTS = [
    the_status_is_that_of_the_files,
    a_full_volume_has_a_status,
    each_command_names_the_process_that_has_the_volume,
    what_has_no_status_is_refused,
    a_file_that_may_not_be_opened_is_named_so,
    an_operator_asks_for_the_status,
    a_group_of_the_operator_has_a_description,
    an_operator_sees_the_sessions_and_ends_them,
    a_server_that_is_told_to_stop_ends_in_order,
    a_stop_beside_posters_keeps_all_that_was_accepted,
    a_signal_beside_posters_loses_nothing_acknowledged,
    a_stop_lets_the_last_replies_arrive,
    a_stop_waits_for_no_caller,
    an_operator_that_reads_nothing_stops_a_server,
    a_device_that_fails_spoils_a_stop,
    a_stop_ends_a_server_whose_device_has_failed,
    a_stop_needs_no_good_device,
    the_end_of_the_operators_lines_ends_nothing,
]


if __name__ == "__main__":
    sys.exit(main(TESTS))
