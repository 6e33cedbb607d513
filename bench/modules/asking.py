"""How long a caller waits for a reply."""
import statistics
import time


def timed(call, rounds):
    """The median of its times, in us."""
    times = []
    for _ in range(rounds):
        start = time.monotonic()
        call()
        times.append(time.monotonic() - start)
    return 1e6 * statistics.median(times)


def read_block(caller):
    while caller.file.readline() != b".\r\n":
        pass


def asks(caller, line, status, has_block=False):
    """A call that sends the line and reads the whole reply."""
    def call():
        reply = caller.ask(line)
        assert reply.startswith(status), (line, reply)
        if has_block:
            read_block(caller)
    return call
