#!/usr/bin/env python3
"""Has spin look at each order of the steps of the server's threads, by the model threads.pml, and for sessions that wait for places by
places.pml: each row must hold, and each mutant, a step left out or in another order, must be refuted. It needs spin and a C compiler, and no program; where one is missing it is skipped.
threads.py NEWSD [NAME..]"""
import os
import re
import shutil
import signal
import subprocess
import sys

from playing import Skipped, main

HERE = os.path.dirname(os.path.abspath(__file__))
MODEL, MODEL_OF_PLACES = (os.path.join(HERE, name) for name in ("threads.pml", "places.pml"))
COMPILER = os.environ.get("CC", "cc")
FLAGS = ["-O0", "-w", "-DSAFETY", "-DCOLLAPSE", "-DVECTORSZ=2048", "-DMEMLIM=4000"]
DEEPEST = "-m2000000"
SECONDS, SECONDS_OF_MANY = 150, 7200
FOUND = re.compile(r"errors: (\d+)")
# a search that was cut short has looked at a part of the orders alone
CUT_SHORT = ("max search depth too small", "out of memory", "Search not completed")

ONE, BLOCK = ["S=1", "M=2"], ["S=1", "M=1", "BLOCKFIRST", "STAY"]
PLACES = ["PLACES=1", "ACCEPT"]
MUTANTS = {
    1: ("a block is left whatever the session holds", ONE),
    2: ("who files writes nothing", ONE),
    3: ("a thread rings for nothing that it filed itself", ONE),
    4: ("nothing is filed between the wait and the park", ["S=1", "M=4", "STAY"]),
    5: ("the ring comes before the flag", ONE),
    6: ("the last pass is judged after it", [*ONE, "STOP"]),
    7: ("nobody files after a fault", [*BLOCK, "FAULT", "OTHERS"]),
    9: ("a block that is refused for dirty ones is dropped", [*ONE, "OTHERS", "STAY"]),
    10: ("a session ends without its block", ONE),
    11: ("the thread of a closed session is not woken", [*BLOCK, "FAULT", "OTHERS"]),
    12: ("a block is taken back without the lock", ONE),
    13: ("who files waits for the lock", [*ONE, "BLOCKFIRST", "LONG", "STAY"]),
    14: ("a thread waits for a place with its desk", ["S=1", "M=3", *PLACES, "STAY"]),
    16: ("who is given a place isn't woken", ["S=2", "M=2", *PLACES, "STAY", "LEAN"]),
}
TWO = ["N=2", "M=2", "P=1"]
MUTANTS_OF_PLACES = {
    1: ("a thread waits for a place with its desk", TWO),
    2: ("who is given a place isn't woken", [*TWO, "DROP"]),
    3: ("who ends keeps the place that it was given", [*TWO, "DROP"]),
    4: ("one that has a place waits for another", TWO),
}


def errors(directory, options, is_whole, seconds=SECONDS, model=MODEL):
    """How many errors spin finds in the model with these options; at most one, since it stops there."""
    if not shutil.which("spin") or not shutil.which(COMPILER):
        raise Skipped("spin or a C compiler is missing")
    room = os.path.join(directory, "-".join([os.path.basename(model), *options]))
    os.mkdir(room)
    shutil.copy(model, room)
    said = {"cwd": room, "stdin": subprocess.DEVNULL, "stdout": subprocess.PIPE, "stderr": subprocess.STDOUT, "text": True}
    subprocess.run(["spin", "-a", *("-D" + it for it in options), os.path.basename(model)], check=True, **said)
    subprocess.run([COMPILER, *FLAGS, "-o", "pan", "pan.c"], check=True, **said)
    looked = subprocess.run([os.path.join(room, "pan"), DEEPEST, "-E"], timeout=seconds, **said).stdout
    found = FOUND.search(looked)
    assert found, looked
    if is_whole:
        assert not any(it in looked for it in CUT_SHORT), (options, looked)
    shutil.rmtree(room)
    return int(found.group(1))


def holds(volume, *options, seconds=SECONDS, model=MODEL):
    assert errors(os.path.dirname(volume.path), options, True, seconds, model) == 0, options


def is_refuted(volume, *numbers, mutants=None, model=MODEL):
    for number in numbers:
        what, options = (mutants or MUTANTS)[number]
        assert errors(os.path.dirname(volume.path), ["MUTANT=%d" % number, *options], False, model=model) == 1, (number, what)


def no_order_of_a_stop_is_wrong(volume):
    holds(volume, *ONE, "STOP")


def no_order_of_a_fault_is_wrong(volume):
    holds(volume, *ONE, "FAULT")


def no_order_of_three_messages_is_wrong(volume):
    holds(volume, "S=1", "M=3")


def no_order_of_places_is_wrong(volume):
    holds(volume, "S=1", "M=3", *PLACES, "STAY")
    holds(volume, *ONE, *PLACES, "FAULT")


def no_order_of_two_that_wait_is_wrong(volume):
    holds(volume, *TWO, model=MODEL_OF_PLACES)


def no_order_with_a_drop_is_wrong(volume):
    holds(volume, *TWO, "DROP", model=MODEL_OF_PLACES)


def mutants_of_places_are_refuted(volume):
    is_refuted(volume, 14, 16)
    is_refuted(volume, *MUTANTS_OF_PLACES, mutants=MUTANTS_OF_PLACES, model=MODEL_OF_PLACES)


def mutants_of_filing_are_refuted(volume):
    is_refuted(volume, 1, 2, 3)


def mutants_of_rings_are_refuted(volume):
    is_refuted(volume, 4, 5)


def mutants_of_ends_are_refuted(volume):
    is_refuted(volume, 6, 10)


def mutants_of_faults_are_refuted(volume):
    is_refuted(volume, 7, 11)


def mutants_of_refusals_and_locks_are_refuted(volume):
    is_refuted(volume, 9, 12, 13)


def no_order_of_more_is_wrong(volume):
    """Larger models: they take minutes each, and gigabytes."""
    signal.alarm(SECONDS_OF_MANY)
    for options in ([*ONE, "PART", "FOUR"], [*ONE, "BLOCKFIRST", "LONG", "STAY"], ["S=1", "M=4"], [*BLOCK, "OTHERS"]):
        holds(volume, *options, seconds=SECONDS_OF_MANY)


TESTS = [
    no_order_of_a_stop_is_wrong,
    no_order_of_a_fault_is_wrong,
    no_order_of_three_messages_is_wrong,
    no_order_of_places_is_wrong,
    no_order_of_two_that_wait_is_wrong,
    no_order_with_a_drop_is_wrong,
    mutants_of_places_are_refuted,
    mutants_of_filing_are_refuted,
    mutants_of_rings_are_refuted,
    mutants_of_ends_are_refuted,
    mutants_of_faults_are_refuted,
    mutants_of_refusals_and_locks_are_refuted,
]

# played where it is named
LONG_ONES = [no_order_of_more_is_wrong]

if __name__ == "__main__":
    sys.exit(main(TESTS, LONG_ONES))
