"""Scripts for `newsd sim`, which plays them on one thread."""
import fcntl
import os
import struct
import subprocess
import sys
import tempfile
import termios
import time

HERE = os.path.dirname(os.path.abspath(__file__))
sys.path.insert(0, os.path.join(HERE, "..", "..", "tests"))
from newsd import HOST  # noqa: E402

# the moment of each event that says no other
MOMENT = 1000000000
# how many changes one commit has
BATCH = 64
PATIENCE = 120


class Sim:
    """A run of `newsd sim` that is given its script in parts."""

    def __init__(self, command, blocks, inodes, environment=None):
        words = [*command, "sim", "--host", HOST, "--blocks", str(blocks), "--inodes", str(inodes)]
        self.printed = tempfile.TemporaryFile()
        self.process = subprocess.Popen(words, stdin=subprocess.PIPE, stdout=self.printed, env=environment)

    def __enter__(self):
        return self

    def __exit__(self, *_):
        self.process.kill()
        self.process.wait()
        self.process.stdin.close()
        self.printed.close()

    def stay_on_one_processor(self):
        """From now on it runs on the processor of all others that do, so that their times compare."""
        os.sched_setaffinity(self.process.pid, {max(os.sched_getaffinity(0))})

    def play(self, lines):
        """Has these lines played. The processor seconds of the run up to then."""
        self.process.stdin.write("".join(line + "\n" for line in lines).encode())
        self.process.stdin.flush()
        end = time.monotonic() + PATIENCE
        while not self.waits():
            if self.process.poll() is not None or time.monotonic() > end:
                raise SystemExit("the script does not go on")
            time.sleep(0.001)
        # the processor clock of another process
        return time.clock_gettime(~self.process.pid << 3 | 2)

    def waits(self):
        """Whether all that was given is read, and the process sleeps."""
        left, = struct.unpack("i", fcntl.ioctl(self.process.stdin, termios.FIONREAD, bytes(4)))
        with open("/proc/%d/stat" % self.process.pid) as stat:
            return left == 0 and stat.read().rpartition(")")[2].split()[0] == "S"

    def end(self):
        """Ends the script. The lines that the run printed."""
        self.process.stdin.close()
        if self.process.wait(PATIENCE):
            raise SystemExit("the script fails")
        self.printed.seek(0)
        return self.printed.read().decode().splitlines()


def line(session, text):
    """The event that a session's line comes."""
    return ("line %d %s" % (session, text)).rstrip()


def execute(session, moment=MOMENT):
    """The event that a session's message is executed."""
    return "exec %d %d" % (session, moment)


def commands(session, texts):
    """The lines that have a session send these commands."""
    return [event for text in texts for event in (line(session, text), execute(session))]


def post(session, texts, moment=MOMENT):
    """The lines that have a session post an article of these lines, the last of which is the dot."""
    return [line(session, "POST"), execute(session, moment), *(line(session, text) for text in texts), execute(session, moment)]


def in_batches(changes):
    """The lines of all changes, with a commit after each batch of them."""
    lines = []
    for k, change in enumerate(changes):
        lines += change
        if k % BATCH == BATCH - 1 or k == len(changes) - 1:
            lines += ["commit", "settle"]
    return lines


def replies(printed):
    """The lines that each session was sent, without their CRLF, by the session's number."""
    sent = {}
    for said in printed:
        if said.startswith("out "):
            session, escaped = said[len("out "):].split(" ", 1)
            sent[int(session)] = sent.get(int(session), "") + escaped.encode().decode("unicode_escape")
    return {session: octets.split("\r\n")[:-1] for session, octets in sent.items()}
