"""INN of Debian's package inn2, as a server of two groups that a load may post to: with the package's own settings, but on a port, in
folders and by a log of its own. The machine's own INN is left alone."""
import contextlib
import os
import pwd
import shutil
import signal
import subprocess
import sys
import tempfile
import time

HERE = os.path.dirname(os.path.abspath(__file__))
sys.path.insert(0, os.path.join(HERE, "..", "..", "tests"))
from newsd import GROUP, Caller, end_with_parent, free_port  # noqa: E402

PROGRAMS, SETTINGS = "/usr/lib/news/bin", "/etc/news"
USER = "news"
FOLDERS = {"patharchive": "archive", "patharticles": "articles", "pathdb": "db", "pathetc": "etc", "pathhttp": "http",
           "pathincoming": "incoming", "pathlog": "log", "pathoutgoing": "outgoing", "pathoverview": "overview", "pathrun": "run",
           "pathspool": "spool", "pathtmp": "tmp"}
# articles of a load are dated 2001; on a busy machine nnrpd would take nobody; a feed isn't needed
CHANGED = {"pathhost": "news.example", "domain": "example", "fromhost": "news.example", "server": "127.0.0.1", "bindaddress": "127.0.0.1",
           "artcutoff": "0", "maxconnections": "200", "nnrpdloadlimit": "0", "doinnwatch": "false", "rlimitnofile": "512"}
INCOMING = 'streaming: true\nmax-connections: 200\npeer ME {\n  hostname: "127.0.0.1"\n}\n'
FEEDS = "ME:*::\n"
# the groups that innd wants besides
ACTIVE = "%s 0000000000 0000000001 %s\n"
ITS_OWN = ("control", "control.cancel", "junk")
SECONDS, TRIES = 10, 5


def is_there():
    return all(os.path.isfile(os.path.join(PROGRAMS, it)) for it in ("innd", "nnrpd", "makedbz"))


class Failed(Exception):
    """INN didn't start."""


class Inn:
    """innd, which takes posts, and nnrpd, which serves readers with a process each. Both are of one session of processes."""

    def __init__(self, directory, groups):
        self.top, self.port = directory, free_port()
        self.news, self.feed_port = pwd.getpwnam(USER), free_port()
        self.write_settings(self.feed_port, groups)
        self.run("makedbz", "-i", "-o", "-s", "100000")
        self.start()

    def start(self):
        script = '"$0"/innd -f -N & exec "$0"/nnrpd -D -f -4 127.0.0.1 -p %d' % self.port
        self.process = subprocess.Popen(["sh", "-c", script, PROGRAMS], start_new_session=True, **self.given())
        self.wait()

    def write_settings(self, own_port, groups):
        etc, db = os.path.join(self.top, "etc"), os.path.join(self.top, "db")
        shutil.copytree(SETTINGS, etc)
        for folder in (*FOLDERS.values(), "incoming/bad", "log/OLD"):
            os.makedirs(os.path.join(self.top, folder), exist_ok=True)
        changed = {**{key: os.path.join(self.top, folder) for key, folder in FOLDERS.items()}, **CHANGED,
                   "port": str(own_port), "nnrpdpostport": str(own_port)}
        with open(os.path.join(SETTINGS, "inn.conf")) as file:
            kept = [it for it in file.read().splitlines() if it.partition(":")[0].strip() not in changed]
        named = [ACTIVE % (it, "n") for it in ITS_OWN] + [ACTIVE % (it, "y") for it in groups]
        for path, text in ((etc + "/inn.conf", "\n".join([*kept, *("%s: %s" % it for it in changed.items())]) + "\n"),
                           (etc + "/incoming.conf", INCOMING), (etc + "/newsfeeds", FEEDS), (db + "/active", "".join(named)),
                           (db + "/newsgroups", ""), (db + "/active.times", ""), (db + "/history", "")):
            with open(path, "w") as file:
                file.write(text)
        os.chmod(self.top, 0o755)
        for folder, folders, names in os.walk(self.top):
            for name in [folder, *(os.path.join(folder, it) for it in names)]:
                os.chown(name, self.news.pw_uid, self.news.pw_gid)

    def given(self):
        return {"env": dict(os.environ, INNCONF=os.path.join(self.top, "etc", "inn.conf")), "cwd": os.path.join(self.top, "db"),
                "stdin": subprocess.DEVNULL, "stdout": subprocess.DEVNULL, "stderr": subprocess.DEVNULL, "preexec_fn": self.become_news}

    def become_news(self):
        end_with_parent()
        os.setgroups([])
        os.setgid(self.news.pw_gid)
        os.setuid(self.news.pw_uid)

    def run(self, program, *words):
        subprocess.run([os.path.join(PROGRAMS, program), *words], check=True, timeout=SECONDS, **self.given())

    def wait(self):
        """Until a reader is greeted, and innd awaits posts. Where another program took one of the ports, that doesn't come."""
        end = time.monotonic() + SECONDS
        while time.monotonic() < end:
            with contextlib.suppress(OSError), self.call() as caller:
                if caller.greeting.startswith("200") and os.path.exists(os.path.join(self.top, "run", "nntpin")):
                    return
            time.sleep(0.1)
        self.kill()
        raise Failed

    def call(self):
        return Caller(self.port)

    def processes(self):
        """The number of each of its processes, and what the system says of it."""
        for number in filter(str.isdigit, os.listdir("/proc")):
            with contextlib.suppress(OSError), open("/proc/%s/stat" % number) as stat:
                fields = stat.read().rsplit(")", 1)[1].split()
                if int(fields[3]) == self.process.pid:
                    yield number, fields

    def processor_seconds(self):
        """Of all its processes, with those that have ended."""
        return sum(sum(map(int, fields[11:15])) for _, fields in self.processes()) / os.sysconf("SC_CLK_TCK")

    def memory(self):
        """The octets of its processes, each of those that they share once."""
        kilobytes = 0
        for number, _ in self.processes():
            with contextlib.suppress(OSError), open("/proc/%s/smaps_rollup" % number) as sizes:
                kilobytes += sum(int(line.split()[1]) for line in sizes if line.startswith("Pss:"))
        return 1024 * kilobytes

    def kill(self):
        """Both are of the group of processes that was started here."""
        with contextlib.suppress(ProcessLookupError):
            os.killpg(self.process.pid, signal.SIGKILL)
        self.process.wait(SECONDS)

    def start_again(self):
        """Has it end in order, and starts it."""
        self.run("ctlinnd", "shutdown", "it is started again")
        end = time.monotonic() + SECONDS
        while os.path.exists(os.path.join(self.top, "run", "innd.pid")):
            assert time.monotonic() < end, "INN doesn't end"
            time.sleep(0.01)
        self.kill()
        self.start()


def started(directory, groups):
    for _ in range(TRIES):
        own = tempfile.mkdtemp(dir=directory)
        try:
            return own, Inn(own, groups)
        except Failed:
            shutil.rmtree(own, ignore_errors=True)
    raise SystemExit("INN doesn't start: try it as the package starts it")


@contextlib.contextmanager
def serve(directory, groups=(GROUP,)):
    """An INN of its own with these groups."""
    own, server = started(directory, groups)
    try:
        yield server
    finally:
        server.kill()
        shutil.rmtree(own, ignore_errors=True)
