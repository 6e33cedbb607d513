"""A server, and its callers, for the system tests and the load program."""
import ctypes
import os
import queue
import re
import resource
import signal
import socket
import subprocess
import threading
import time

HOST = "news.example"
GROUP = "x.a"
GREETING = "200 %s ready, posting permitted" % HOST
SECONDS = 30
# for a command that may do much work: others may keep the processors busy, and a machine may be some times slower
SECONDS_OF_WORK = 240
SERVICE_ENDS = "400 Service ends"
# all sessions may be of callers of one address, which has half of them otherwise
ALL_FROM_ONE = ["--most-from", "64"]
# what a file is that holds `no volume`
NO_SUPERBLOCK = "E3 NotAVolume: the file has 9 octets, fewer than the 4,096 of a superblock"
# how a server ends whose file may not grow, and one of which a sync failed
FAULT = (1, "newsd: E1 Fault: the file may not grow so large\n")
SYNC_FAULT = (1, "newsd: E1 Fault: I/O error\n")
ESTABLISHED = 1
LIBC = ctypes.CDLL(None)
SET_PARENT_DEATH_SIGNAL = 1
LINE_OCTETS = 72
LOGGED = "time="
# lines of the log that come beside those that a test asks for
UNCOUNTED = re.compile(rb" event=(begin|opening|post) | event=refused session=")


def article(number, subject="one", body="hi"):
    """An article of its own id, with the line that ends it."""
    return "\r\n".join([
        "Path: p!not-for-mail",
        "Date: Sun, 09 Sep 2001 01:46:40 +0000",
        "Message-ID: %s" % message_id(number),
        "From: a@example.org",
        "Newsgroups: %s" % GROUP,
        "Subject: %s" % subject,
        "",
        body,
        ".",
        "",
    ]).encode()


def long_article(number, size):
    """An article that has this size as it is stored."""
    left = size - len(article(number, body="")) + len(b".\r\n")
    lines, rest = divmod(left, LINE_OCTETS)
    body = ["%070d" % line for line in range(lines)] + ["x" * rest]
    return article(number, body="\r\n".join(body))


def message_id(number):
    return "<%s@a.example>" % number


def simulate(program, lines, blocks, inodes):
    """What the program prints of these lines of a script, which it plays on a volume in memory."""
    words = [program, "sim", "--host", HOST, "--blocks", str(blocks), "--inodes", str(inodes)]
    done = subprocess.run(words, input=("\n".join(lines) + "\n").encode(), capture_output=True, timeout=SECONDS_OF_WORK, check=True)
    return done.stdout.decode().splitlines()


class Volume:
    """A volume in a file of a directory that goes with the test."""

    def __init__(self, program, directory, blocks=8192, inodes=4096, host=HOST):
        self.program = os.path.abspath(program)
        self.path = os.path.join(directory, "volume")
        self.run("format", self.path, "--host", host, "--blocks", str(blocks), "--inodes", str(inodes)).check_returncode()

    def another(self, name, **given):
        """Another volume, of the same test."""
        directory = os.path.join(os.path.dirname(self.path), name)
        os.mkdir(directory)
        return Volume(self.program, directory, **given)

    def run(self, *words, given=b"", most_memory=resource.RLIM_INFINITY, user=None, seconds=SECONDS_OF_WORK):
        """Runs the program on these words and this input to its end, within these seconds, with at most this much memory, and by the
        user of this number."""
        def limit():
            resource.setrlimit(resource.RLIMIT_AS, (most_memory, most_memory))
            if user is not None:
                os.setuid(user)
        return subprocess.run([self.program, *words], input=given, capture_output=True, timeout=seconds, preexec_fn=limit)

    def export(self, *words):
        """The articles as a batch."""
        done = self.run("export", self.path, *words)
        assert (done.returncode, done.stderr) == (0, b""), done
        return done.stdout

    def make_group(self, name=GROUP):
        made = self.run("group", self.path, name, "y", "1000000000", "test")
        made.check_returncode()
        return int(made.stdout)

    def expire(self, number, name=GROUP):
        """Takes the articles of a group up to this number out of it."""
        made = self.run("expire", self.path, name, str(number))
        made.check_returncode()
        return int(made.stdout)

    def dump(self):
        """The lines of the spool, the first of which counts the others."""
        done = self.run("dump", self.path)
        done.check_returncode()
        return done.stdout.decode().splitlines()

    def settle(self):
        """Opens it to write to it and makes no change: images of open segments are home then, and it has format 3. `dump` and the
        others that only read a volume leave each octet of it."""
        done = self.run("import", self.path)
        assert (done.returncode, done.stderr) == (0, b""), done

    def serve(self, by=(), words=(), log=None):
        """A server of it, with these further words, which the program of the words `by` runs where there are any. Its log goes to `log`, a
        file or a word of `subprocess`; with none it is read as it comes, and kept for whoever asks for it. `PIPE` is a pipe that nobody
        reads: after some 650 posts it is full, and the server writes no more lines then."""
        return Server(self, by, words, log)


class Heard:
    """The lines of a pipe, which a thread reads as they come, so that it is never full. It is read as the pipe would be."""

    def __init__(self, stream):
        self.stream, self.lines = stream, queue.SimpleQueue()
        self.reading = threading.Thread(target=self.hear, daemon=True)
        self.reading.start()

    def hear(self):
        try:
            for line in self.stream:
                self.lines.put(line)
        finally:
            # its end, which is found by each who comes to it
            self.lines.put(b"")

    def readline(self):
        line = self.lines.get()
        if not line:
            self.lines.put(line)
        return line

    def __iter__(self):
        return iter(self.readline, b"")

    def read(self):
        return b"".join(self)

    def close(self):
        self.reading.join(SECONDS)
        self.stream.close()


class Server:
    """A running server. It is ended by its own process number. What reads its pipes waits as long as the caller lets it."""

    def __init__(self, volume, by=(), words=(), log=None):
        for _ in range(5):
            self.port = free_port()
            self.process = subprocess.Popen(
                [*by, volume.program, "serve", volume.path, "--port", str(self.port), *words],
                stdin=subprocess.PIPE, stdout=subprocess.PIPE, stderr=subprocess.PIPE if log is None else log,
                # python ignores the signal of a file that grows past its limit, and so does the server then
                restore_signals=False,
                # Linux shares the processors between sessions first: what loads the server then takes none of its share
                start_new_session=True,
                preexec_fn=end_with_parent,
            )
            if log is None:
                self.process.stderr = Heard(self.process.stderr)
            try:
                line = self.process.stdout.readline().decode()
                if line == "listening 127.0.0.1:%d\n" % self.port:
                    return
                said = self.process.stderr.read().decode() if self.process.stderr else ""
            except BaseException:
                self.kill()
                raise
            self.kill()
        raise AssertionError("the server does not listen: %r %r" % (line, said))

    def __enter__(self):
        return self

    def __exit__(self, *_):
        self.kill()

    def kill(self):
        if self.process.poll() is None:
            os.kill(self.process.pid, signal.SIGKILL)
        self.process.wait(SECONDS)
        for stream in (self.process.stdin, self.process.stdout, self.process.stderr):
            if stream:
                stream.close()

    def have_writes_fail(self):
        """From now on each write of the device fails but those to its first block."""
        resource.prlimit(self.process.pid, resource.RLIMIT_FSIZE, (4096, 4096))

    def limit_memory(self, octets):
        """Limits the server's address space from now on; -1 is no limit."""
        resource.prlimit(self.process.pid, resource.RLIMIT_AS, (octets, -1))

    def address_space(self):
        """The octets of it that are in use."""
        with open("/proc/%d/statm" % self.process.pid) as sizes:
            return int(sizes.read().split()[0]) * resource.getpagesize()

    def limit_descriptors(self, most):
        """From now on it gets no descriptor more than these."""
        _, hard = resource.prlimit(self.process.pid, resource.RLIMIT_NOFILE)
        resource.prlimit(self.process.pid, resource.RLIMIT_NOFILE, (most, hard))

    def descriptors(self):
        return len(os.listdir("/proc/%d/fd" % self.process.pid))

    def end(self, seconds=SECONDS):
        """The status and the faults of a server that ends by itself. The lines of its log are none."""
        status = self.process.wait(seconds)
        said = self.process.stderr.read().decode().splitlines(keepends=True)
        return status, "".join(line for line in said if not line.startswith(LOGGED))

    def log(self):
        """The next line of its log. Those of the beginnings of sessions, of their posts and of a slow opening don't count."""
        return next(line for line in self.process.stderr if not UNCOUNTED.search(line)).decode().rstrip("\n")

    def order(self, line):
        """What the operator is answered."""
        self.process.stdin.write(line.encode() + b"\n")
        self.process.stdin.flush()
        return self.process.stdout.readline().decode().rstrip("\n")

    def call(self):
        return Caller(self.port)

    def greet(self, seconds, receive_octets=None):
        """A caller that is greeted. Callers that come too early learn that the service ends."""
        end = time.monotonic() + seconds
        while True:
            caller = Caller(self.port, receive_octets, seconds)
            if caller.greeting == GREETING:
                return caller
            assert caller.greeting == SERVICE_ENDS, caller.greeting
            caller.close()
            assert time.monotonic() < end, "nobody is greeted in %s seconds" % seconds
            time.sleep(0.005)

    def memory(self, name="VmRSS"):
        """The octets of memory that it has, or by VmHWM those that it had at most."""
        with open("/proc/%d/status" % self.process.pid) as status:
            kilobytes = next(line.split()[1] for line in status if line.startswith(name + ":"))
        return 1024 * int(kilobytes)

    def connections(self, caller):
        """The rows of the system's table of the server's end of this caller's connection, and of the caller's."""
        ends = ":%04X" % self.port, ":%04X" % caller.socket.getsockname()[1]
        with open("/proc/%d/net/tcp" % self.process.pid) as table:
            rows = [line.split() for line in table][1:]
        return ([row for row in rows if row[1].endswith(near) and row[2].endswith(far)] for near, far in (ends, ends[::-1]))

    def has_established(self, caller):
        """Whether the server's end of this caller's connection is as it was, which the other end may learn late."""
        return any(int(row[3], 16) == ESTABLISHED for row in next(self.connections(caller)))

    def octets_on_the_way(self, caller):
        """The octets that the server wrote to this caller and the caller hasn't read."""
        (near,), (far,) = self.connections(caller)
        return int(near[4].split(":")[0], 16) + int(far[4].split(":")[1], 16)

    def processor_seconds(self):
        with open("/proc/%d/stat" % self.process.pid) as stat:
            fields = stat.read().rsplit(")", 1)[1].split()
        return (int(fields[11]) + int(fields[12])) / os.sysconf("SC_CLK_TCK")


class Caller:
    """A client that reads its greeting when it comes. A proxy says something first."""

    def __init__(self, port, receive_octets=None, seconds=SECONDS, to="127.0.0.1", source=None, first=b""):
        self.socket = socket.socket(socket.AF_INET6 if ":" in to else socket.AF_INET)
        if receive_octets:
            self.socket.setsockopt(socket.SOL_SOCKET, socket.SO_RCVBUF, receive_octets)
        self.socket.settimeout(seconds)
        if source:
            self.socket.bind((source, 0))
        self.socket.connect((to, port))
        self.socket.setsockopt(socket.IPPROTO_TCP, socket.TCP_NODELAY, 1)
        self.file = self.socket.makefile("rb")
        self.send(first)
        self.greeting = self.line()

    def __enter__(self):
        return self

    def __exit__(self, *_):
        self.close()

    def close(self):
        self.file.close()
        self.socket.close()

    def line(self):
        return self.file.readline().decode().rstrip("\r\n")

    def send(self, octets):
        self.socket.sendall(octets)

    def ask(self, line):
        self.send(line.encode() + b"\r\n")
        return self.line()

    def post(self, octets):
        """The reply to an article."""
        reply = self.ask("POST")
        if not reply.startswith("340"):
            return reply
        self.send(octets)
        return self.line()

    def has_ended(self):
        return self.file.read() == b""

    def read_whole(self, octets, rate=None):
        """Whether the next octets are these. They are read so fast at most, in octets for each second."""
        pace, at = Pace(rate), 0
        while at < len(octets):
            # one read of the socket, since what `read` would wait for may not come at once
            piece = self.file.read1(pace.wait(len(octets) - at))
            if not piece or piece != octets[at:at + len(piece)]:
                return False
            at += len(piece)
            pace.note(len(piece))
        return True


class Pace:
    """How fast somebody reads. What was not read in time is not read faster later."""

    def __init__(self, rate):
        self.rate = rate
        self.next = time.monotonic()

    def wait(self, count):
        """Waits until more may be read, and says how many of the octets that were asked for."""
        if self.rate is None:
            return min(count, 65536)
        now = time.monotonic()
        if now < self.next:
            time.sleep(self.next - now)
        self.next = max(self.next, now)
        return min(count, max(1, self.rate // 20))

    def note(self, count):
        if self.rate is not None:
            self.next += count / self.rate


def end_with_parent():
    """What runs here is killed once the thread that started it has ended, however that was."""
    LIBC.prctl(SET_PARENT_DEATH_SIGNAL, signal.SIGKILL)


def wait_until(is_so, seconds=10):
    end = time.monotonic() + seconds
    while not is_so():
        assert time.monotonic() < end, "not so after %s seconds" % seconds
        time.sleep(0.01)


def free_port():
    with socket.socket() as probe:
        probe.bind(("127.0.0.1", 0))
        return probe.getsockname()[1]


def octets(path):
    with open(path, "rb") as file:
        return file.read()


def settled_octets(path):
    """A file's octets once the batch that was acknowledged has ended."""
    seen = octets(path)
    for _ in range(50):
        time.sleep(0.1)
        before, seen = seen, octets(path)
        if before == seen:
            return seen
    raise AssertionError("the file does not come to rest")
