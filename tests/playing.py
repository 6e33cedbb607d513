"""Plays the tests of one file: FILE NEWSD [NAME..]."""
import os
import signal
import sys
import tempfile
import threading
import time
import traceback

from newsd import Volume

# a machine may be some times slower than the one on which the tests were written
SECONDS_OF_A_TEST = 360
SECONDS_OF_A_LONG_ONE = 900
TRIES = 3
# seconds between two tries
PAUSE = 2
MEMORY = "/dev/shm"
# the volumes of one test
ROOM = 400 << 20


class Skipped(Exception):
    """What a test needs, and this machine does not have."""


class TooLong(Exception):
    """A test was still running at the end of its time."""


class TooSlow(Exception):
    """A measure was not as wanted. Other programs on the machine may be why, so it is taken again."""


def measured(measure):
    """What a measure answers. Where it is too slow it is taken again, a few times at most. Any other failure stands."""
    for tries_left in reversed(range(TRIES)):
        try:
            return measure()
        except TooSlow as why:
            print("  too slow: %s (%s)" % (why, who_else_is_busy()), flush=True)
            if not tries_left:
                raise
            time.sleep(PAUSE)


def who_else_is_busy():
    """How many threads of the whole machine share the processors at the moment."""
    with open("/proc/loadavg") as load:
        running = load.read().split()[3].split("/")[0]
    return "%s threads run or could, on %d processors" % (running, os.cpu_count())


def side_by_side(*calls):
    """Has each of these called on a thread of its own, and fails as the first of them that does."""
    failures = []

    def run(call):
        try:
            call()
        except BaseException as failure:
            failures.append(failure)

    threads = [threading.Thread(target=run, args=(call,), daemon=True) for call in calls]
    for thread in threads:
        thread.start()
    for thread in threads:
        thread.join()
    if failures:
        raise failures[0]


def memory_directory():
    """Where files lie in memory, so that no disk's speed shows in a measure; None where there is no such place."""
    try:
        found = os.statvfs(MEMORY)
    except OSError:
        return None
    has_room = found.f_bavail * found.f_frsize >= ROOM
    return MEMORY if has_room and os.access(MEMORY, os.W_OK) else None


def names_of(tests):
    return [test.__name__ for test in tests]


def too_long(*_):
    raise TooLong("it has not come to its end in time")


def play(program, test, place, seconds):
    """How a test ends within its seconds: the word by which it counts, and why it was skipped."""
    try:
        with tempfile.TemporaryDirectory(prefix="newsd-", dir=place) as directory:
            signal.alarm(seconds)
            try:
                test(Volume(program, directory))
            finally:
                signal.alarm(0)
        return "ok", ""
    except Skipped as why:
        return "skipped", ": %s" % why
    except Exception:
        traceback.print_exc()
        return "FAILED", ""


def main(tests, long_ones=(), is_timed=False):
    """Plays those tests that the command line names, or all but the long ones, each on a new volume: in memory where they are timed."""
    program, wanted = sys.argv[1], sys.argv[2:]
    place = memory_directory() if is_timed else None
    ends = {"ok": 0, "FAILED": 0, "skipped": 0}
    signal.signal(signal.SIGALRM, too_long)
    for test in [*tests, *long_ones]:
        if test.__name__ not in (wanted or names_of(tests)):
            continue
        start = time.monotonic()
        end, why = play(program, test, place, SECONDS_OF_A_LONG_ONE if test in long_ones else SECONDS_OF_A_TEST)
        ends[end] += 1
        print("%s ... %s%s (%.1f s)" % (test.__name__, end, why, time.monotonic() - start), flush=True)
    print("%d passed, %d failed, %d skipped" % tuple(ends.values()))
    return 1 if ends["FAILED"] else 0
