"""A caller that asks without end. Its process has a session of its own, so it takes no time of the one that measures."""
import multiprocessing
import os
import threading

from newsd import Pace, end_with_parent

FORK = multiprocessing.get_context("fork")


class Flood:
    """It asks the same again and again, and reads so fast at most: in octets for each second, or as fast as it can where that
    is None, or not at all where it is 0. It has failed where it got something else than its replies, or no more."""

    def __init__(self, caller, asked, reply, rate):
        self.count = FORK.Value("Q", 0)
        self.failures = FORK.Value("I", 0)
        self.process = FORK.Process(target=self.run, args=(caller, asked, reply, rate), daemon=True)
        self.process.start()

    def __enter__(self):
        return self

    def __exit__(self, *_):
        self.process.kill()
        self.process.join()

    def has_failed(self):
        return self.failures.value > 0

    def run(self, caller, asked, reply, rate):
        try:
            os.setsid()
            end_with_parent()
            threading.Thread(target=ask_without_end, args=(caller, asked), daemon=True).start()
            if rate == 0:
                threading.Event().wait()
            self.read(caller, reply, rate)
        finally:
            self.failures.value += 1
            os._exit(1)

    def read(self, caller, reply, rate):
        """Reads for as long as it gets its replies."""
        pace, ahead = Pace(rate), memoryview(reply + reply)
        while True:
            at = self.count.value % len(reply)
            piece = caller.file.read1(pace.wait(len(reply)))
            if not piece or piece != ahead[at:at + len(piece)]:
                return
            pace.note(len(piece))
            self.count.value += len(piece)


def ask_without_end(caller, asked):
    try:
        while True:
            caller.send(asked * 50)
    except OSError:
        pass
