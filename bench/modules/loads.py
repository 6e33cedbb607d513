"""Loads on a server over the loopback interface: what they share. A server and its load have a scheduling group each, since Linux
shares its processors between sessions of processes first."""
import contextlib
import os
import struct
import subprocess
import sys
import tempfile

HERE = os.path.dirname(os.path.abspath(__file__))
sys.path.insert(0, os.path.join(HERE, "..", "..", "tests"))
from newsd import ALL_FROM_ONE, Volume  # noqa: E402

# a volume has room for 32,762 articles: a group takes three inodes, an article one
BLOCKS, INODES, MOST_POSTS = 65536, 32768, 32000

# seconds that a load may take beyond its time
PATIENCE = 60

# a group that nobody posts to
QUIET_GROUP = "x.b"


class Figures:
    """What a load printed."""

    def __init__(self, said):
        words = said.split()
        self.replies = int(words[0])
        self.rate, self.mean, self.median, self.late, self.slowest = map(float, words[1:])

    def __str__(self):
        return "%8.0f/s  median %8.0f us  99 in 100 %8.0f us" % (self.rate, self.median, self.late)


class Processors:
    """The processors of this machine, from now on."""

    def __init__(self):
        self.start = self.ticks()

    @staticmethod
    def ticks():
        """All ticks so far, and those that other machines on the same processors took."""
        with open("/proc/stat") as stat:
            ticks = [int(word) for word in stat.readline().split()[1:9]]
        return sum(ticks), ticks[7]

    def taken(self):
        """The part of their time that others took."""
        every, others = (b - a for a, b in zip(self.start, self.ticks()))
        return others / max(every, 1)


class Bench:
    def __init__(self, program, directory, seconds, words=ALL_FROM_ONE):
        """Its servers have these further words. Their logs are discarded as they are written."""
        self.program, self.directory, self.seconds, self.words = program, directory, seconds, words
        self.load = self.build("load", ["-pthread"])
        self.counter = self.build("device_calls", ["-shared", "-fPIC", "-ldl"])
        self.counts_path = os.path.join(directory, "counts")

    def build(self, name, flags):
        made = os.path.join(self.directory, name)
        source = os.path.join(HERE, "..", "c", name + ".c")
        subprocess.run([os.environ.get("CC", "cc"), "-O2", "-o", made, source, *flags], check=True)
        return made

    @contextlib.contextmanager
    def serve(self, has_syncs=True, log=subprocess.DEVNULL, words=()):
        """A server of a new volume with the group of the posts and a quiet one, whose log goes there, with these words beside its own."""
        with tempfile.TemporaryDirectory(dir=self.directory) as directory:
            volume = Volume(self.program, directory, BLOCKS, INODES)
            volume.make_group()
            volume.make_group(QUIET_GROUP)
            with self.counted(volume, has_syncs, log, words) as server:
                yield server

    def counted(self, volume, has_syncs=True, log=subprocess.DEVNULL, words=()):
        with open(self.counts_path, "wb") as counts:
            counts.write(bytes(32))
        os.environ.update(LD_PRELOAD=self.counter, NEWSD_COUNTS=self.counts_path)
        if not has_syncs:
            os.environ["NEWSD_NO_SYNC"] = "1"
        try:
            return volume.serve(words=[*self.words, *words], log=log)
        finally:
            for name in ("LD_PRELOAD", "NEWSD_COUNTS", "NEWSD_NO_SYNC"):
                os.environ.pop(name, None)

    def counts(self):
        """Syncs, writes, octets written, and nanoseconds in these calls, so far."""
        with open(self.counts_path, "rb") as counts:
            return struct.unpack("4Q", counts.read())

    def start(self, server, sessions, *words):
        command = [self.load, str(server.port), str(sessions), str(self.seconds), *words]
        return subprocess.Popen(command, stdout=subprocess.PIPE, start_new_session=True)

    def finish(self, load):
        """The figures of a load that runs."""
        try:
            said, _ = load.communicate(timeout=self.seconds + PATIENCE)
        except subprocess.TimeoutExpired:
            load.kill()
            raise SystemExit("the load does not end")
        if load.returncode:
            raise SystemExit("the load failed")
        return Figures(said.decode())

    def start_posts(self, server, sessions):
        return self.start(server, sessions, "post", str(MOST_POSTS))
