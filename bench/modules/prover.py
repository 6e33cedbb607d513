"""Checks of crates over libraries that are built, and how many of them may run at once."""
import functools
import os
import re
import subprocess
import threading
import time

from toolchain import keeps, loaded, path_of_rt

# what a check takes of memory, at most, in octets
MEMORY = 2_500_000_000
# of a function that may wait for ever a check says so behind its verdict
MAY_WAIT = re.compile(r"^(fn \S+: proved), may .*$", re.M)


# the moment at which checks end, by time.monotonic(), if there is one
ends = None


class Missing(Exception):
    """What of the toolchain isn't there."""


class Late(Exception):
    """A check that hadn't ended when the time was over."""


@functools.lru_cache(maxsize=None)
def toolchain():
    """The toolchain's program, as a module."""
    path = path_of_rt()
    if not path:
        raise Missing("`rt` isn't on the path: install the Rattle toolchain")
    rt = loaded(path)
    # checks end when this process ends; what sees to that is begun in the main thread
    rt.rtlib.guarded()
    return rt


def libraries(top):
    """The crates of a repository as the toolchain knows them, by name, each after those that it uses."""
    rt = toolchain()
    rt.Crate.allowed = rt.handles_of(top)
    if keeps(rt):
        return {it.name: it for it in rt.crates_of(top)}
    rt.rtlib.Crate = rt.Crate
    return {it.name: it for it in rt.rtlib.crates_below(top)}


def lanes():
    """How many checks may run at once: one a processor, as far as memory holds."""
    return max(1, min(toolchain().processors(), int(toolchain().free() / MEMORY)))


class Ran:
    """What a check ended with, what it said, and the seconds of one processor that it took."""

    def __init__(self, status, said, seconds):
        self.status, self.said, self.seconds = status, said, seconds


def check(crate, folder, more):
    """Checks the texts in a folder as those of the crate. Where the time is over before it ended it is Late."""
    rt = toolchain()
    left = 0 if ends is None else ends - time.monotonic()
    if left < 0:
        raise Late
    words = [*rt.rtlib.guarded(), rt.rtlib.RATTLE, "check", *crate.words(["--jobs", "1"], keeps=False), *more]
    with subprocess.Popen(words, cwd=folder, stdin=subprocess.DEVNULL, stdout=subprocess.PIPE, stderr=subprocess.STDOUT) as running:
        clock = threading.Timer(left, running.kill)
        if ends is not None:
            clock.start()
        said = MAY_WAIT.sub(r"\1", running.stdout.read().decode(errors="replace"))
        _, status, spent = os.wait4(running.pid, 0)
        running.returncode = os.waitstatus_to_exitcode(status)
        clock.cancel()
    if ends is not None and time.monotonic() >= ends:
        raise Late
    return Ran(running.returncode, said, spent.ru_utime + spent.ru_stime)
