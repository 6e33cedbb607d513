#!/usr/bin/env python3
"""System tests of `newsd ask` and the control socket, and of what the service manager is told. asking.py NEWSD [NAME..]"""
import os
import re
import socket
import stat
import subprocess
import sys
import threading
import time

from newsd import GREETING, SECONDS, Caller, article, end_with_parent, free_port, wait_until
from playing import TooSlow, main, measured, side_by_side

# the most connections at one time, and the seconds after which a silent one is closed
CONSOLES = 8
SILENT_SECS = 10
TOO_MANY = "E7 TooManySessions\n.\n"
STATUS = re.compile(rb"host \S+ format 3 blocks \d+ of \d+ .* accepted (\d+) durable (\d+) batches \d+ syncs \d+\n\Z")


def socket_of(volume):
    return os.path.join(os.path.dirname(volume.path), "control")


def serve(volume, *words, **given):
    return volume.serve(words=["--control", socket_of(volume), *words], **given)


def ask(volume, *words):
    """The status, the answer and the faults of an asker."""
    done = volume.run("ask", socket_of(volume), *words)
    return done.returncode, done.stdout, done.stderr


class Connection:
    """A console at the control socket, which no program of this repository keeps."""

    def __init__(self, volume, seconds=SECONDS):
        self.socket = socket.socket(socket.AF_UNIX)
        self.socket.settimeout(seconds)
        self.socket.connect(socket_of(volume))
        self.file = self.socket.makefile("rb")

    def __enter__(self):
        return self

    def __exit__(self, *_):
        self.file.close()
        self.socket.close()

    def send(self, octets):
        self.socket.sendall(octets)

    def answer(self):
        """The lines of the next answer."""
        lines = []
        for line in self.file:
            if line == b".\n":
                return lines
            lines.append(line.decode().rstrip("\n"))
        raise AssertionError("the answer has no end: %r" % lines)

    def rest(self):
        return self.file.read().decode()


def refused(volume, why):
    """The server is refused for this cause, and nothing has changed where its socket was to be."""
    path = socket_of(volume)
    before = seen_at(path)
    done = volume.run("serve", volume.path, "--port", str(free_port()), "--control", path)
    # nothing of the volume was read before
    assert (done.returncode, done.stdout, done.stderr.decode()) == (1, b"", "newsd: %s\n" % why), done
    assert seen_at(path) == before, before


def seen_at(path):
    """What stands at a path, and what beside it."""
    there = os.lstat(path)
    return there.st_ino, there.st_mode, there.st_size, there.st_mtime_ns, sorted(os.listdir(os.path.dirname(path)))


def a_server_answers_who_asks(volume):
    """The answers are those of the operator's lines, and the words of a line may be words of the command line."""
    volume.make_group()
    with serve(volume) as server, server.call() as caller:
        assert stat.S_IMODE(os.stat(socket_of(volume)).st_mode) == 0o600
        assert caller.post(article(1)) == "240 Article received"
        status, said, faults = ask(volume, "status")
        assert (status, faults) == (0, b"") and STATUS.match(said)[1] == b"2", (status, said, faults)
        assert ask(volume, "group", "x.b", "y", "1000000000", "A", "new group") == (0, b"3\n", b"")
        assert ask(volume, "group x.c y 1000000000 -another") == (0, b"4\n", b"")
        assert ask(volume, "expire", "x.a", "1") == (0, b"5\n", b"")
        assert ask(volume, "list-older", "1") == (0, b"articles 0\n", b"")
        status, said, _ = ask(volume, "sessions")
        lines = said.decode().splitlines()
        assert (status, lines[-1], len(lines)) == (0, "sessions 1", 2), said
        # those of standard input are answered as before
        assert server.order("group x.b y 1000000000 again") == "E11 Exists"
        assert ask(volume, "drop", "127.0.0.1") == (0, b"dropped 1\n", b"") and caller.has_ended()
    assert volume.dump() == ["spool 5", "1 group x.a y", "2 article <1@a.example> x.a", "3 group x.b y", "4 group x.c y", "5 expire x.a 1"]


def a_refusal_has_status_1(volume):
    volume.make_group()
    with serve(volume):
        assert ask(volume, "group", "x.a", "y", "1000000000", "again") == (1, b"E11 Exists\n", b"")
        assert ask(volume, "expire", "x.none", "1") == (1, b"E12 NotFound\n", b"")
        assert ask(volume, "drop", "7") == (1, b"E12 NotFound\n", b"")
        for line in ("", "nonsense", "status ", "x" * 1024, "x" * 1025, "x" * 100000):
            assert ask(volume, line) == (1, b"E14 Bad\n", b""), line
        status, said, faults = ask(volume, "status\nstop")
        assert (status, said, faults) == (1, b"", b"newsd: E14 Bad: LINE 'status\\nstop' is more than one line\n"), (status, said, faults)
    done = volume.run("ask", socket_of(volume))
    assert (done.returncode, done.stdout) == (2, b"") and b"LINE" in done.stderr, done


def nobody_there_has_status_2(volume):
    """Nothing stands there, or a socket that was left, or a file, or what answers is no server."""
    nobody = b"newsd: nobody answers: No such file or directory (os error 2)\n"
    assert ask(volume, "status") == (2, b"", nobody), ask(volume, "status")
    with serve(volume) as server:
        assert ask(volume, "status")[0] == 0
        server.kill()
    status, said, faults = ask(volume, "status")
    assert (status, said) == (2, b"") and faults.startswith(b"newsd: nobody answers: "), (status, said, faults)
    os.remove(socket_of(volume))
    with socket.socket(socket.AF_UNIX) as other:
        other.bind(socket_of(volume))
        other.listen()
        for answer in (b"", b"3\n", b"3", b".\n", b"x" * 2000 + b"\n.\n"):
            answering = threading.Thread(target=answer_once, args=(other, answer))
            answering.start()
            status, _, faults = ask(volume, "status")
            answering.join(SECONDS)
            assert status == 2 and faults.startswith(b"newsd: the answer has no end: "), (answer, status, faults)


def answer_once(listener, answer):
    caller, _ = listener.accept()
    with caller:
        caller.recv(4096)
        caller.sendall(answer)


def a_socket_that_was_left_is_replaced(volume):
    with serve(volume) as server:
        server.kill()
    left = os.lstat(socket_of(volume))
    assert stat.S_ISSOCK(left.st_mode)
    with serve(volume) as server:
        assert ask(volume, "status")[0] == 0
        assert server.order("stop") == "stopped" and server.end() == (0, "")
    assert not os.path.lexists(socket_of(volume))


def what_else_stands_there_is_refused(volume):
    """A link isn't followed, even to a socket that was left."""
    path = socket_of(volume)
    foreign = "E14 Bad: --control SOCKET is no socket"
    with open(path, "wb") as file:
        file.write(b"mine")
    refused(volume, foreign)
    os.remove(path)
    for make in (os.mkdir, os.mkfifo):
        make(path)
        refused(volume, foreign)
        os.rmdir(path) if os.path.isdir(path) else os.remove(path)
    with socket.socket(socket.AF_UNIX) as left:
        left.bind(path + ".left")
    os.symlink(path + ".left", path)
    refused(volume, foreign)
    os.remove(path)
    other = volume.another("other")
    with other.serve(words=["--control", path]):
        refused(volume, "E14 Bad: --control SOCKET is one that somebody answers")
        status, said, _ = ask(volume, "status")
        assert status == 0 and STATUS.match(said), said
    for path in ("", "/" + "x" * 200, os.path.join(os.path.dirname(path), "no", "folder")):
        done = volume.run("serve", volume.path, "--port", str(free_port()), "--control", path)
        # a slow opening has lines of the log before
        assert (done.returncode, done.stdout) == (1, b""), done
        assert done.stderr.splitlines()[-1].startswith(b"newsd: can't make the socket of --control: "), done
    assert volume.dump() == ["spool 0"]


def a_socket_that_another_has_put_there_stays(volume):
    with serve(volume) as server:
        os.remove(socket_of(volume))
        with socket.socket(socket.AF_UNIX) as other:
            other.bind(socket_of(volume))
        assert server.order("stop") == "stopped" and server.end() == (0, "")
    assert stat.S_ISSOCK(os.lstat(socket_of(volume)).st_mode)


def the_answers_of_two_askers_never_mix(volume):
    """Long ones, and those of the operator's own lines beside them."""
    with serve(volume, "--most-from", "64") as server:
        callers = [server.call() for _ in range(40)]

        def ask_for_sessions():
            for _ in range(20):
                status, said, faults = ask(volume, "sessions")
                lines = said.decode().splitlines()
                assert (status, faults, len(lines), lines[-1]) == (0, b"", 41, "sessions 40"), (status, said, faults)
                assert all(re.match(r"session \d+ |\d+ ", line) for line in lines[:-1]), lines

        def ask_for_the_status():
            for _ in range(20):
                status, said, faults = ask(volume, "status")
                assert (status, faults) == (0, b"") and STATUS.match(said), (status, said, faults)

        def order():
            for number in range(200):
                assert server.order("expire x.none %d" % (number + 1)) == "E12 NotFound"

        def ask_on_one_connection():
            with Connection(volume) as connection:
                connection.send(b"status\nsessions\nnonsense\n" * 20)
                for _ in range(20):
                    first, second, third = (connection.answer() for _ in range(3))
                    assert len(first) == 1 and first[0].startswith("host "), first
                    assert len(second) == 41 and second[-1] == "sessions 40" and third == ["E14 Bad"], (second, third)

        side_by_side(ask_for_sessions, ask_for_the_status, order, ask_on_one_connection)
        for caller in callers:
            caller.close()


def one_that_says_nothing_is_closed(volume):
    """Nobody else waits for it; nor does who sends a line octet by octet stay."""
    with serve(volume) as server, Connection(volume) as silent, Connection(volume) as slow:
        started = time.monotonic()
        assert ask(volume, "status")[0] == 0
        while time.monotonic() - started < SILENT_SECS + 5:
            try:
                slow.send(b"x")
            except OSError:
                break
            time.sleep(0.5)
        assert SILENT_SECS - 1 < time.monotonic() - started < SILENT_SECS + 5
        assert silent.rest() == ""
        assert server.order("stop") == "stopped" and server.end() == (0, "")


def one_that_never_reads_is_cut(volume):
    """It asks for much and takes nothing. The server goes on, and its end waits for none but the shortest time."""
    with serve(volume, "--most-from", "64") as server, Connection(volume) as deaf:
        callers = [server.call() for _ in range(40)]
        deaf.socket.setblocking(False)
        sent, end = 0, time.monotonic() + 6 * SILENT_SECS
        is_cut = False
        while not is_cut and time.monotonic() < end:
            try:
                sent += deaf.socket.send(b"sessions\n" * 100)
            except BlockingIOError:
                time.sleep(0.2)
                assert ask(volume, "status")[0] == 0
            except (BrokenPipeError, ConnectionResetError):
                is_cut = True
        assert is_cut, sent
        for caller in callers:
            caller.close()
    measured(lambda: a_deaf_one_holds_up_no_end(volume))


def a_deaf_one_holds_up_no_end(volume):
    """The server waits a second for it."""
    with serve(volume, "--most-from", "64") as server, Connection(volume) as deaf:
        callers = [server.call() for _ in range(40)]
        deaf.send(b"sessions\n" * 2000)
        # its answers find no room any more
        time.sleep(1)
        started = time.monotonic()
        assert server.order("stop") == "stopped" and server.end() == (0, "")
        seconds = time.monotonic() - started
        for caller in callers:
            caller.close()
    if seconds > SILENT_SECS - 2:
        raise TooSlow("the server's end took %.1f s" % seconds)


def there_are_eight_at_most(volume):
    """The ninth is told so at once, and comes in once one of them has gone."""
    with serve(volume) as server:
        there = [Connection(volume) for _ in range(CONSOLES)]
        for connection in there:
            connection.send(b"status\n")
            assert connection.answer()[0].startswith("host ")
        with Connection(volume) as ninth:
            assert ninth.rest() == TOO_MANY
        status, said, faults = ask(volume, "status")
        assert (status, said, faults) == (1, b"E7 TooManySessions\n", b""), (status, said, faults)
        # the operator's own lines need no place
        assert server.order("expire x.none 1") == "E12 NotFound"
        there.pop().__exit__()
        wait_until(lambda: ask(volume, "status")[0] == 0)
        for connection in there:
            connection.__exit__()


def who_asks_for_the_end_is_answered(volume):
    """Even where others are connected, one of which has asked, too."""
    volume.make_group()
    with serve(volume) as server, server.call() as caller, Connection(volume), Connection(volume) as other:
        assert caller.post(article(1)) == "240 Article received"
        started = time.monotonic()
        assert ask(volume, "stop") == (0, b"stopped\n", b"")
        assert server.end() == (0, "") and time.monotonic() - started < SILENT_SECS - 1
        assert other.rest() == "" and server.process.stdout.read() == b""
    assert not os.path.lexists(socket_of(volume))
    assert volume.dump() == ["spool 2", "1 group x.a y", "2 article <1@a.example> x.a"]


def the_socket_goes_at_a_fault(volume):
    volume.make_group()
    with serve(volume) as server, server.call() as caller:
        server.have_writes_fail()
        caller.send(b"POST\r\n")
        assert ask(volume, "group", "x.b", "y", "1000000000", "b") == (1, b"E1 Fault\n", b"")
        assert server.end()[0] == 1
    assert not os.path.lexists(socket_of(volume))


class Manager:
    """A service manager, which listens at a name."""

    def __init__(self, name):
        self.name = name
        self.socket = socket.socket(socket.AF_UNIX, socket.SOCK_DGRAM)
        self.socket.settimeout(SECONDS)
        self.socket.bind(name.replace("@", "\0", 1))

    def __enter__(self):
        return self

    def __exit__(self, *_):
        self.socket.close()

    def told(self):
        return self.socket.recv(4096)

    def has_more(self):
        self.socket.setblocking(False)
        try:
            return self.socket.recv(4096)
        except BlockingIOError:
            return None


def the_service_manager_is_told(volume):
    """At a path, and at a name of the abstract namespace: once the port answers, and when the server begins to end."""
    longest = os.path.join(os.path.dirname(volume.path), "")
    for name in (longest + "n", longest + "n" * (107 - len(longest)), "@newsd-%d" % os.getpid(), "@" + "n" * 107):
        with Manager(name) as manager:
            port = free_port()
            serving = subprocess.Popen([volume.program, "serve", volume.path, "--port", str(port)], stdin=subprocess.PIPE,
                                       stdout=subprocess.PIPE, stderr=subprocess.DEVNULL, preexec_fn=end_with_parent,
                                       env={**os.environ, "NOTIFY_SOCKET": name})
            try:
                assert manager.told() == b"READY=1", name
                with Caller(port) as caller:
                    assert caller.greeting.startswith("200 ")
                assert manager.has_more() is None
                manager.socket.settimeout(SECONDS)
                serving.stdin.write(b"stop\n")
                serving.stdin.flush()
                assert manager.told() == b"STOPPING=1", name
                assert serving.wait(SECONDS) == 0 and manager.has_more() is None
            finally:
                serving.kill()
                serving.wait(SECONDS)
                serving.stdin.close()
                serving.stdout.close()


def nobody_has_to_listen_to_it(volume):
    """Where nobody does, or the name is none, the server serves as without one. Other commands tell nothing."""
    folder = os.path.dirname(volume.path)
    with open(os.path.join(folder, "file"), "w"):
        pass
    for name in ("", "@", "/", "relative", folder, folder + "/none", folder + "/file", folder + "/" + "n" * 200, "@" + "n" * 108, "\udcff"):
        before = dict(os.environ)
        os.environ["NOTIFY_SOCKET"] = name
        try:
            with volume.serve() as server, server.call() as caller:
                assert caller.greeting == GREETING
                assert server.order("stop") == "stopped" and server.end() == (0, "")
        finally:
            os.environ.clear()
            os.environ.update(before)
    with Manager(folder + "/manager") as manager:
        done = subprocess.run([volume.program, "dump", volume.path], env={**os.environ, "NOTIFY_SOCKET": manager.name},
                              capture_output=True, timeout=SECONDS)
        assert done.returncode == 0 and manager.has_more() is None, done


TESTS = [
    a_server_answers_who_asks,
    a_refusal_has_status_1,
    nobody_there_has_status_2,
    a_socket_that_was_left_is_replaced,
    what_else_stands_there_is_refused,
    a_socket_that_another_has_put_there_stays,
    the_answers_of_two_askers_never_mix,
    one_that_says_nothing_is_closed,
    one_that_never_reads_is_cut,
    there_are_eight_at_most,
    who_asks_for_the_end_is_answered,
    the_socket_goes_at_a_fault,
    the_service_manager_is_told,
    nobody_has_to_listen_to_it,
]

if __name__ == "__main__":
    sys.exit(main(TESTS))
