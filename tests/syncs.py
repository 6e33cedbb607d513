"""Counts the writes and syncs of a program by tracing it, or has one sync fail, with python3 alone. x86-64 and arm64 of Linux.

syncs.py PROGRAM [WORD..] runs a program to its end. Of the first sync that ends after the signal SIGUSR1 the program learns that it
failed."""
import ctypes
import errno
import os
import platform
import signal
import sys

TRACEME, CONT_TO_CALL, GETREGSET, SETREGSET, SETOPTIONS = 0, 24, 0x4204, 0x4205, 0x4200
TRACE_GOOD, TRACE_CLONE, EXIT_KILL = 1, 8, 0x100000
REGISTERS = 1
ALL_CHILDREN = 0x40000000

# the places of the call's number and of its result among the registers, and the numbers that count
PLACES = {"x86_64": 15, "aarch64": 8}
RESULTS = {"x86_64": 10, "aarch64": 0}
NAMES = {
    "x86_64": {18: "pwrite64", 74: "fsync", 75: "fdatasync"},
    "aarch64": {68: "pwrite64", 82: "fsync", 83: "fdatasync"},
}

LIBC = ctypes.CDLL(None, use_errno=True)
LIBC.ptrace.argtypes = [ctypes.c_long, ctypes.c_long, ctypes.c_void_p, ctypes.c_void_p]
LIBC.ptrace.restype = ctypes.c_long


class Part(ctypes.Structure):
    _fields_ = [("base", ctypes.c_void_p), ("length", ctypes.c_size_t)]


def count_calls(words):
    """How often a run of these words writes and syncs, by name; None where it can't be traced."""
    counts = {name: 0 for name in NAMES.get(platform.machine(), {}).values()}

    def count(_, name):
        counts[name] += 1

    return None if trace(words, count, is_silent=True) is None else counts


def can_trace():
    return count_calls(["/bin/true"]) is not None


def trace(words, at_result, is_silent):
    """Runs these words, and calls `at_result` with the thread and the name of each write and sync, before the program has its result.
    The status of the run; None where it can't be traced."""
    if platform.machine() not in PLACES:
        return None
    child = os.fork()
    if child == 0:
        be_traced(words, is_silent)
    _, status = os.waitpid(child, 0)
    if not os.WIFSTOPPED(status):
        return None
    result = None
    try:
        if LIBC.ptrace(SETOPTIONS, child, None, TRACE_GOOD | TRACE_CLONE | EXIT_KILL) == 0:
            result = trace_to_end(child, at_result)
    finally:
        if result is None:
            end(child)
    return result


def be_traced(words, is_silent):
    """Stops, to be traced, and runs these words. Ends with status 1 where that can't be."""
    try:
        if is_silent:
            silent = os.open(os.devnull, os.O_RDWR)
            for number in (0, 1, 2):
                os.dup2(silent, number)
        if LIBC.ptrace(TRACEME, 0, None, None) == 0:
            os.kill(os.getpid(), signal.SIGSTOP)
            os.execv(words[0], words)
    finally:
        os._exit(1)


def trace_to_end(child, at_result):
    """Goes through the calls of a stopped child and of its threads, until it ends, and answers its status."""
    inside = {}
    go_on(child, 0)
    while True:
        pid, status = os.waitpid(-1, ALL_CHILDREN)
        if has_ended(status):
            if pid == child:
                return os.waitstatus_to_exitcode(status)
            continue
        signal_number = os.WSTOPSIG(status)
        if signal_number == signal.SIGTRAP | 0x80:
            inside[pid] = not inside.get(pid, False)
            name = None if inside[pid] else NAMES[platform.machine()].get(call_number(pid))
            if name:
                at_result(pid, name)
            signal_number = 0
        elif signal_number in (signal.SIGTRAP, signal.SIGSTOP):
            signal_number = 0
        go_on(pid, signal_number)


def end(child):
    """Kills a traced child. It is gone once each of its threads was waited for."""
    os.kill(child, signal.SIGKILL)
    while True:
        pid, status = os.waitpid(-1, ALL_CHILDREN)
        if pid == child and has_ended(status):
            return


def has_ended(status):
    return os.WIFEXITED(status) or os.WIFSIGNALED(status)


def go_on(pid, signal_number):
    LIBC.ptrace(CONT_TO_CALL, pid, None, signal_number)


def call_number(pid):
    return registers_of(pid)[0][PLACES[platform.machine()]]


def have_failed(pid):
    """The call that a stopped thread comes back from has failed, as far as the thread can know."""
    registers, part = registers_of(pid)
    registers[RESULTS[platform.machine()]] = (1 << 64) - errno.EIO
    LIBC.ptrace(SETREGSET, pid, REGISTERS, ctypes.byref(part))


def registers_of(pid):
    """The registers of a stopped thread, and how the system learns where they are."""
    registers = (ctypes.c_ulonglong * 40)()
    part = Part(ctypes.cast(registers, ctypes.c_void_p), ctypes.sizeof(registers))
    LIBC.ptrace(GETREGSET, pid, REGISTERS, ctypes.byref(part))
    return registers, part


def main():
    syncs_left_to_fail = [0]

    def ask(*_):
        syncs_left_to_fail[0] = 1

    def at_result(pid, name):
        if syncs_left_to_fail[0] and name in ("fsync", "fdatasync"):
            syncs_left_to_fail[0] = 0
            have_failed(pid)

    signal.signal(signal.SIGUSR1, ask)
    status = trace(sys.argv[1:], at_result, is_silent=False)
    return 1 if status is None else status


if __name__ == "__main__":
    sys.exit(main())
