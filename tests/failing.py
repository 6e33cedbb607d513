#!/usr/bin/env python3
"""System tests of a server whose device fails, or to which the system gives nothing more. failing.py NEWSD [NAME..]"""
import errno
import fcntl
import os
import signal
import struct
import subprocess
import sys
import tempfile
import termios
import threading
import time

from newsd import FAULT, GREETING, HOST, SERVICE_ENDS, SYNC_FAULT, Caller, article, settled_octets, wait_until
from playing import Skipped, TooSlow, main, measured
from refusals import compile_library
from syncs import can_trace

SYNCS = os.path.join(os.path.dirname(os.path.abspath(__file__)), "syncs.py")
FAULTING = os.path.join(os.path.dirname(os.path.abspath(__file__)), "faulting.c")
# what the system says of a write, its name in the log, and the words of a refusal
SAID = [
    (errno.ENOSPC, "nospace", "no space left on the file system"),
    (errno.EDQUOT, "quota", "no space left within the quota"),
    (errno.EROFS, "readonly", "the file system is read-only"),
    (errno.EFBIG, "toolarge", "the file may not grow so large"),
    (errno.EIO, "io", "I/O error"),
    (errno.EACCES, "denied", "permission denied"),
    (errno.ESTALE, "stale", "the file's server no longer has it"),
    (errno.ENXIO, "other", "the device failed"),
]
# the smallest pipe that the system knows
PIPE_OCTETS = 4096
SECONDS_OF_AN_END = 3
# five seconds in which one more caller may come, and an end
SECONDS_AFTER_A_FAULT = 8


def call_until_the_end(server):
    """Callers come until one learns that the service ends, which is the server's last."""
    greetings = []
    while SERVICE_ENDS not in greetings and len(greetings) < 500:
        with Caller(server.port) as late:
            greetings.append(late.greeting)
        time.sleep(0.01)
    assert greetings[-1] == SERVICE_ENDS, greetings[-5:]


def see_that_it_serves_again(volume, number):
    """What was acknowledged is there, and more is taken."""
    with volume.serve() as server, server.call() as caller:
        assert caller.ask("STAT <1@a.example>") == "223 0 <1@a.example>"
        assert caller.post(article(number)) == "240 Article received"


def fault_ends(volume, server, fail, end=FAULT):
    """The device fails by this call. The next caller learns that the service ends, and what was not acknowledged is not; the volume
    serves again afterwards."""
    with server, server.call() as caller, server.call() as other:
        assert caller.post(article(1)) == "240 Article received"
        settled_octets(volume.path)
        fail()
        other.send(b"POST\r\n" + article(2))
        call_until_the_end(server)
        assert other.line() == "340 Send article" and other.has_ended()
        assert server.end() == end
    see_that_it_serves_again(volume, 3)


def a_failing_device_ends_the_server(volume):
    volume.make_group()
    server = volume.serve()
    fault_ends(volume, server, server.have_writes_fail)


def a_failed_sync_ends_the_server(volume):
    """One sync fails, and all after it would be good: after a sync that failed, nobody knows what the device has."""
    if not can_trace():
        raise Skipped("no program can be traced")
    volume.make_group()
    server = volume.serve(by=[sys.executable, "-B", SYNCS])
    fault_ends(volume, server, lambda: os.kill(server.process.pid, signal.SIGUSR1), SYNC_FAULT)


def a_fault_ends_a_server_that_nobody_calls(volume):
    """Some seconds after it, with the status by which a unit starts it again."""
    volume.make_group()
    with volume.serve() as server, server.call() as caller, server.call() as other:
        assert caller.post(article(1)) == "240 Article received"
        settled_octets(volume.path)
        server.have_writes_fail()
        other.send(b"POST\r\n" + article(2))
        start = time.monotonic()
        assert server.end(SECONDS_AFTER_A_FAULT) == FAULT
        print("  ended after %.1f s" % (time.monotonic() - start), flush=True)
        assert other.line() == "340 Send article" and other.has_ended() and caller.has_ended()
    see_that_it_serves_again(volume, 3)


class Faults:
    """Errors of the system that a library preloaded into the program gives each write at a place of a file, once they begin."""

    def __init__(self, folder):
        self.library = compile_library(folder, FAULTING)
        if self.library is None:
            raise Skipped("there is no compiler for C")
        self.begun = os.path.join(folder, "begun")

    def words(self, number):
        """What runs the program with the error of this number."""
        return ["env", "LD_PRELOAD=" + self.library, "NEWSD_FAULTS=" + self.begun, "NEWSD_ERROR=%d" % number]

    def begin(self):
        open(self.begun, "w").close()

    def end(self):
        os.remove(self.begun)


def a_fault_names_what_the_system_said(volume):
    """The log by a name, and the refusal in words."""
    with tempfile.TemporaryDirectory(prefix="newsd-faulting-") as folder:
        faults = Faults(folder)
        volume.make_group()
        for at, (number, name, words) in enumerate(SAID):
            with volume.serve(by=faults.words(number)) as server, server.call() as caller:
                if at == 0:
                    assert caller.post(article(1)) == "240 Article received"
                faults.begin()
                caller.send(b"POST\r\n" + article(2))
                call_until_the_end(server)
                server.process.wait(SECONDS_OF_AN_END)
                said = server.process.stderr.read().decode().splitlines()
                assert [line.split(" ", 1)[1] for line in said if "event=fault" in line] == ["event=fault error=" + name], said
                assert said[-1] == "newsd: E1 Fault: " + words, said
            faults.end()
        see_that_it_serves_again(volume, 3)


def each_command_names_what_the_system_said(volume):
    with tempfile.TemporaryDirectory(prefix="newsd-faulting-") as folder:
        faults = Faults(folder)
        volume.make_group()
        commands = [
            ["format", volume.path + ".new", "--host", HOST],
            ["group", volume.path, "x.b", "y", "1000000000", "test"],
            ["expire", volume.path, "--older-than", "1"],
            ["import", volume.path],
            ["renew", volume.path, volume.path + ".renewed"],
            ["serve", volume.path, "--port", "1"],
        ]
        faults.begin()
        for words in commands:
            for number, _, said in SAID[:5]:
                done = subprocess.run([*faults.words(number), volume.program, *words], input=b"", capture_output=True, timeout=30)
                last = done.stderr.decode().splitlines()[-1]
                assert (done.returncode, last) == (1, "newsd: E1 Fault: " + said), (words, done)


def a_file_system_without_room_is_named(volume):
    """A volume of holes, as a copy that leaves out zeros has them, on a small file system: it is served until there is no room."""
    with tempfile.TemporaryDirectory(prefix="newsd-small-") as folder:
        mounted = subprocess.run(["mount", "-t", "tmpfs", "-o", "size=1m", "tmpfs", folder], capture_output=True)
        if mounted.returncode != 0:
            raise Skipped("no file system can be mounted")
        try:
            small = volume.another("small")
            small.make_group()
            held = small.path
            small.path = os.path.join(folder, "volume")
            subprocess.run(["cp", "--sparse=always", held, small.path], check=True)
            posted = fill(small)
            print("  %d articles were acknowledged" % posted, flush=True)
            subprocess.run(["cp", "--sparse=always", small.path, held], check=True)
            small.path = held
            assert small.export().count(b"#! rnews ") >= posted
        finally:
            subprocess.run(["umount", folder], check=True)


def fill(volume):
    """How many articles are acknowledged before the file system is full, which the server says."""
    with volume.serve() as server, server.call() as caller:
        posted = 0
        while posted < 2000:
            reply = caller.post(article(posted + 1, body="x" * 2000))
            if reply != "240 Article received":
                break
            posted += 1
        call_until_the_end(server)
        server.process.wait(SECONDS_OF_AN_END)
        said = server.process.stderr.read().decode().splitlines()
    assert [line for line in said if line.endswith("event=fault error=nospace")], said[-5:]
    assert said[-1] == "newsd: E1 Fault: no space left on the file system", said[-5:]
    return posted


def without_descriptors_a_caller_is_told(volume):
    """Wherever the descriptors end: at the caller's own, or at a further one of the same caller."""
    volume.make_group()
    with volume.serve() as server:
        # a greeted caller finds that the server has all that it keeps; the acceptor gives up one of them to refuse a caller
        with server.call():
            at_rest = server.descriptors() - 2
        wait_until(lambda: server.descriptors() == at_rest + 1)
        for more in range(3, 7):
            server.limit_descriptors(at_rest + more)
            served = call_until_refused(server, more)
            for _ in range(2):
                assert not call_until_refused(server, 0)
            assert served, more
            served.pop(0).close()
            with server.greet(5) as again:
                assert again.post(article(more)) == "240 Article received"
            for caller in served:
                assert caller.ask("QUIT") == "205 Bye"
                caller.close()
            wait_until(lambda: server.descriptors() == at_rest)
        end_without_descriptors(server, at_rest + 3)


def call_until_refused(server, most):
    """Callers come, up to a number, until one learns that the service ends. The others are served meanwhile."""
    served = []
    while True:
        caller = Caller(server.port, seconds=5)
        if caller.greeting != GREETING:
            assert caller.greeting == SERVICE_ENDS and caller.has_ended(), caller.greeting
            caller.close()
            return served
        served.append(caller)
        assert len(served) <= most
        assert all(other.ask("STAT <9@a.example>") == "430 No such article" for other in served)


def end_without_descriptors(server, descriptors):
    """Where no descriptor is left, the next caller still learns that the service ends, and it does."""
    server.limit_descriptors(descriptors)
    poster, *others = call_until_refused(server, 3)
    server.have_writes_fail()
    poster.send(b"POST\r\n" + article("last"))
    wait_until(lambda: has_ended_for_a_caller(server))
    assert server.end() == FAULT
    for caller in (poster, *others):
        caller.close()


def has_ended_for_a_caller(server):
    """Whether the server has ended. If not, one more caller comes and is refused, for want of a descriptor or as its last."""
    try:
        with Caller(server.port, seconds=5) as late:
            assert late.greeting == SERVICE_ENDS, late.greeting
    except ConnectionError:
        pass
    return server.process.poll() is not None


def without_memory_a_caller_is_told(volume):
    """The system gives no more memory: each further caller is served or learns that the service ends, and none waits in vain. Whoever
    is served goes on, and so does everybody once there is memory again."""
    volume.make_group()
    with volume.serve() as server:
        first = server.greet(5)
        server.limit_memory(server.address_space())
        callers = [Caller(server.port, seconds=5) for _ in range(70)]
        served = [caller for caller in callers if caller.greeting == GREETING]
        refused = [caller for caller in callers if caller.greeting == SERVICE_ENDS]
        assert len(served) + len(refused) == len(callers) and refused
        assert all(caller.has_ended() for caller in refused)
        server.limit_memory(-1)
        for number, caller in enumerate([first, *served], 1):
            assert caller.ask("STAT <x@a.example>") == "430 No such article"
        assert first.post(article(number)) == "240 Article received"
        for caller in [first, *callers]:
            caller.close()
        with server.greet(5) as again:
            assert again.ask("GROUP x.a") == "211 1 1 1 x.a"


def an_operator_that_reads_nothing_holds_nobody(volume):
    volume.make_group()

    def measure():
        with volume.serve() as server, server.call() as caller:
            fcntl.fcntl(server.process.stdout, fcntl.F_SETPIPE_SZ, PIPE_OCTETS)
            asking = threading.Thread(target=ask_the_impossible, args=(server.process.stdin,), daemon=True)
            asking.start()
            wait_until_full(server.process.stdout)
            assert caller.ask("STAT <9@a.example>") == "430 No such article"
            server.have_writes_fail()
            caller.send(b"POST\r\n" + article(1))
            call_until_the_end(server)
            try:
                assert server.end(SECONDS_OF_AN_END) == FAULT
            except subprocess.TimeoutExpired:
                raise TooSlow("it has not ended after %d s" % SECONDS_OF_AN_END) from None
            asking.join()

    measured(measure)


def ask_the_impossible(pipe):
    """Sends lines that are answered at once, for as long as they are taken."""
    try:
        for _ in range(2000):
            os.write(pipe.fileno(), b"spool\n" * 50)
    except (OSError, ValueError):
        pass


def wait_until_full(pipe):
    """Waits until a pipe has octets, and gets no more."""
    held = [-2, -1]

    def is_at_rest():
        time.sleep(0.1)
        held[:] = held[1], struct.unpack("i", fcntl.ioctl(pipe, termios.FIONREAD, bytes(4)))[0]
        return 0 < held[1] == held[0]

    wait_until(is_at_rest)


TESTS = [
    a_failing_device_ends_the_server,
    a_failed_sync_ends_the_server,
    a_fault_ends_a_server_that_nobody_calls,
    a_fault_names_what_the_system_said,
    each_command_names_what_the_system_said,
    a_file_system_without_room_is_named,
    without_descriptors_a_caller_is_told,
    without_memory_a_caller_is_told,
    an_operator_that_reads_nothing_holds_nobody,
]

if __name__ == "__main__":
    sys.exit(main(TESTS))
