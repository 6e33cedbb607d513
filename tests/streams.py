#!/usr/bin/env python3
"""System tests of standard streams that are closed or full: what they carry never goes to a volume. streams.py NEWSD [NAME..]"""
import os
import shutil
import subprocess
import sys

from newsd import GROUP, HOST, SECONDS, Caller, article, end_with_parent, free_port, octets, wait_until
from playing import Skipped, main

INPUT, OUTPUT, FAULTS = 0, 1, 2
# what is closed: each stream alone, and all three
CLOSED = ((INPUT,), (OUTPUT,), (FAULTS,), (INPUT, OUTPUT, FAULTS))
# the refusal of a stream that is closed, and of a device that has no room
BAD_DESCRIPTOR = "newsd: Bad file descriptor (os error 9)\n"
NO_ROOM = "newsd: No space left on device (os error 28)\n"
GROUP_WORDS = (GROUP, "y", "1000000000", "test")
FORMAT_WORDS = ("--host", HOST, "--blocks", "1024", "--inodes", "64")
SCRIPT = b"group x.a y 1000000000 test\ncommit\n"
COUNTS = "filed %d\nhere 0\nno group 0\nrefused %d\n"
WITHOUT_NULL = ["unshare", "--map-root-user", "--mount", "sh", "-c", 'mount -t tmpfs none /dev && exec "$@"', "sh"]


def piece(number):
    """An article as a piece of a batch."""
    text = article(number)[:-len(b".\r\n")].replace(b"\r\n", b"\n")
    return b"#! rnews %d\n%s" % (len(text), text)


BATCH = piece(1) + piece(2)
# its second article is none
MIXED = piece(1) + b"#! rnews 3\nab\n" + piece(2)


def close_all(descriptors):
    for descriptor in descriptors:
        os.close(descriptor)


class Done:
    """How a command ended whose streams of these descriptors were closed, and what it wrote to the others."""

    def __init__(self, program, words, closed, given=b"", output=subprocess.PIPE):
        def close():
            close_all(closed)

        done = subprocess.run([program, *words], input=given, stdout=output, stderr=subprocess.PIPE, timeout=SECONDS, preexec_fn=close)
        self.words, self.closed = words, closed
        self.status, self.output, self.faults = done.returncode, (done.stdout or b"").decode(), done.stderr.decode()

    def check(self, status, output="", faults=""):
        """Whether it ended so, as far as its streams were open."""
        wanted = (status, "" if OUTPUT in self.closed else output, "" if FAULTS in self.closed else faults)
        assert (self.status, self.output, self.faults) == wanted, (self.words, self.closed, vars(self), wanted)

    def check_closed_output(self, output):
        """Whether it was done, or refused just because its output is closed."""
        if OUTPUT in self.closed:
            self.check(1, faults=BAD_DESCRIPTOR)
        else:
            self.check(0, output)


def settle(volume):
    """The octets of a volume that the next opening leaves as they are."""
    volume.settle()
    return octets(volume.path)


def fill(volume):
    """Makes a group with two articles in it."""
    volume.make_group()
    done = volume.run("import", volume.path, given=BATCH)
    assert (done.returncode, done.stdout.decode()) == (0, COUNTS % (2, 0)), done


def what_is_read_stays_as_it_is(volume):
    fill(volume)
    before = settle(volume)
    for words in (["status"], ["status", "--json"], ["dump"], ["export"]):
        words = [words[0], volume.path, *words[1:]]
        printed = volume.run(*words).stdout.decode()
        for closed in CLOSED:
            Done(volume.program, words, closed).check_closed_output(printed)
            assert octets(volume.path) == before, (words, closed)


def changes_are_those_of_open_streams(volume):
    """A group is made, and an article taken out of one, also where the serial can't be printed: then the status is 1."""
    fill(volume)
    before = settle(volume)
    for words, serial in ((["group", volume.path, "x.b", *GROUP_WORDS[1:]], "4\n"), (["expire", volume.path, GROUP, "1"], "4\n")):
        after = None
        for closed in ((), *CLOSED):
            write(volume.path, before)
            Done(volume.program, words, closed).check_closed_output(serial)
            after = after or settle(volume)
            assert settle(volume) == after != before, (words, closed)


def an_empty_volume_is_made(volume):
    path = volume.path + "-made"
    words = ["format", path, *FORMAT_WORDS]
    Done(volume.program, words, ()).check(0)
    wanted = octets(path)
    for closed in CLOSED:
        os.remove(path)
        Done(volume.program, words, closed).check(0)
        assert octets(path) == wanted, closed


def a_volume_is_renewed(volume):
    """Also where its report can't be printed: then the status is 1."""
    fill(volume)
    before, dumped = settle(volume), volume.dump()
    words = ["renew", volume.path, "--in-place"]
    printed = volume.run(*words).stdout.decode()
    wanted = settle(volume)
    for closed in CLOSED:
        write(volume.path, before)
        Done(volume.program, words, closed).check_closed_output(printed)
        assert (settle(volume), volume.dump()) == (wanted, dumped), closed


def a_batch_is_filed_or_refused(volume):
    """Input that can't be read is no empty batch. What is filed stays filed where its count can't be printed."""
    volume.make_group()
    before, words = settle(volume), ["import", volume.path]
    none, first = volume.dump(), ["spool 2", "1 group x.a y", "2 article <1@a.example> x.a"]
    both = ["spool 3", *first[1:], "3 article <2@a.example> x.a"]
    for closed, given, status, output, faults, dumped in (
        ((), BATCH, 0, COUNTS % (2, 0), "", both),
        ((INPUT,), BATCH, 1, COUNTS % (0, 0), BAD_DESCRIPTOR.replace("newsd:", "newsd: octet 0:"), none),
        ((OUTPUT,), BATCH, 1, "", BAD_DESCRIPTOR, both),
        ((FAULTS,), BATCH, 0, COUNTS % (2, 0), "", both),
        ((FAULTS,), MIXED, 1, COUNTS % (1, 1) + "  1 no empty line follows the header\n", "", first),
        ((INPUT, OUTPUT, FAULTS), BATCH, 1, "", "", none),
    ):
        write(volume.path, before)
        Done(volume.program, words, closed, given).check(status, output, faults)
        found = volume.dump()
        assert found == dumped, (closed, found)


def a_script_is_played_or_refused(volume):
    words = ["sim", "--host", HOST]
    for closed, status, faults in (
        ((), 0, ""), ((INPUT,), 1, BAD_DESCRIPTOR), ((OUTPUT,), 1, BAD_DESCRIPTOR), ((FAULTS,), 0, ""), ((INPUT, OUTPUT, FAULTS), 1, "")):
        Done(volume.program, words, closed, SCRIPT).check(status, "" if status else "durable 1\n", faults)


class ServedClosed:
    """A server whose streams of these descriptors are closed."""

    def __init__(self, volume, closed):
        def close():
            end_with_parent()
            close_all(closed)

        self.port, pipe = free_port(), subprocess.PIPE
        words = [volume.program, "serve", volume.path, "--port", str(self.port)]
        self.process = subprocess.Popen(words, stdin=pipe, stdout=pipe, stderr=pipe, start_new_session=True, preexec_fn=close)

    def __enter__(self):
        return self

    def __exit__(self, *_):
        if self.process.poll() is None:
            self.process.kill()
        self.process.communicate()

    def is_served(self):
        assert self.process.poll() is None, self.process.communicate()
        try:
            Caller(self.port).close()
            return True
        except ConnectionError:
            return False

    def post(self, number):
        wait_until(self.is_served, SECONDS)
        with Caller(self.port) as caller:
            assert caller.post(article(number)) == "240 Article received"
            assert caller.ask("QUIT") == "205 Bye"


def a_server_serves_without_its_log(volume):
    volume.make_group()
    with ServedClosed(volume, [FAULTS]) as server:
        server.post(1)
        output, _ = server.process.communicate(b"status\nstop\n", SECONDS)
        assert server.process.returncode == 0 and output.endswith(b"\nstopped\n"), output
    assert volume.dump() == ["spool 2", "1 group x.a y", "2 article <1@a.example> x.a"]


def a_server_serves_without_lines_of_an_operator(volume):
    volume.make_group()
    with ServedClosed(volume, [INPUT]) as server:
        server.post(1)
    assert volume.dump() == ["spool 2", "1 group x.a y", "2 article <1@a.example> x.a"]


def a_server_that_can_not_answer_is_refused(volume):
    volume.make_group()
    before = settle(volume)
    for closed in ([OUTPUT], [INPUT, OUTPUT], [INPUT, OUTPUT, FAULTS]):
        with ServedClosed(volume, closed) as server:
            _, faults = server.process.communicate(b"", SECONDS)
            assert server.process.returncode == 1, closed
            assert faults.decode() == ("" if FAULTS in closed else BAD_DESCRIPTOR), faults
        assert octets(volume.path) == before, closed


def what_a_full_output_does_not_take_is_said(volume):
    """A change is made then, and its serial is lost: the status says so."""
    fill(volume)
    with open("/dev/full", "wb") as full:
        for words in (
            ["--version"], ["--help"], ["sim", "--host", HOST], ["status", volume.path], ["status", volume.path, "--json"],
            ["dump", volume.path], ["export", volume.path], ["group", volume.path, "x.b", *GROUP_WORDS[1:]],
            ["expire", volume.path, GROUP, "1"], ["import", volume.path], ["renew", volume.path, "--in-place"],
        ):
            Done(volume.program, words, (), SCRIPT if words[0] == "sim" else b"", full).check(1, faults=NO_ROOM)
    assert volume.dump()[4:] == ["4 group x.b y", "5 expire x.a 1"]


def without_the_null_device_nothing_is_begun(volume):
    volume.make_group()
    before = settle(volume)
    if shutil.which("unshare") is None or subprocess.run([*WITHOUT_NULL, "true"], capture_output=True).returncode:
        raise Skipped("no file system of its own can be had")
    for words in (["dump", volume.path], ["group", volume.path, "x.b", *GROUP_WORDS[1:]], ["serve", volume.path, "--port", "1"]):
        done = subprocess.run([*WITHOUT_NULL, volume.program, *words], stdin=subprocess.PIPE, capture_output=True, timeout=SECONDS)
        assert (done.returncode, done.stdout, done.stderr) == (1, b"", b"newsd: /dev/null: No such file or directory (os error 2)\n"), done
        assert octets(volume.path) == before, words


def write(path, octets_of_it):
    with open(path, "wb") as file:
        file.write(octets_of_it)


TESTS = [
    what_is_read_stays_as_it_is,
    changes_are_those_of_open_streams,
    an_empty_volume_is_made,
    a_volume_is_renewed,
    a_batch_is_filed_or_refused,
    a_script_is_played_or_refused,
    a_server_serves_without_its_log,
    a_server_serves_without_lines_of_an_operator,
    a_server_that_can_not_answer_is_refused,
    what_a_full_output_does_not_take_is_said,
    without_the_null_device_nothing_is_begun,
]

if __name__ == "__main__":
    sys.exit(main(TESTS))
