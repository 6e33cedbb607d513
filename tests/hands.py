#!/usr/bin/env python3
"""Tests of what a thread's hand is for: a desk that is held while its thread waits for others doesn't compile. The compiler is run over a
small crate that is made of the sources themselves. They need no program, but the toolchain.
hands.py [NEWSD [NAME..]]"""
import os
import re
import shutil
import subprocess
import sys
import tempfile

from pages import main

TOP = os.path.dirname(os.path.dirname(os.path.abspath(__file__)))
CRATES = os.path.join(TOP, "crates")
# the sources of the hand, of a desk and its turns, and of what the flusher rings
SOURCES = ("kernel_shared/src/hands.rt", "kernel_shared/src/hooks.rt", "kernel_shared/src/arrivals.rt", "kernel_shared/src/bells.rt",
           "server_outgoing/src/turns.rt")
# what a desk has, as far as the turns ask for it
OUTGOING = """//! What a session has outside of the kernel.

use std::alloc::{AllocError, Global};

/// What a session has outside of the kernel.
#[derive(Drop)]
pub struct Outgoing {
    octets: u64,
}

impl Outgoing {
    pub fn new(_alloc: Global) -> Result<Outgoing, AllocError> {
        Ok(Outgoing { octets: 0 })
    }

    pub fn octets_out(&self) -> u64 {
        self.octets
    }
}
"""
# a thread that has a turn at a desk and waits for the flusher, in one order or the other
CRATE = """//! A thread that has a turn at a desk, and waits for the flusher.
#![tactic(auto)]

mod arrivals;
mod bells;
mod hands;
mod hooks;
mod outgoing;
mod turns;

use arrivals::Arrivals;
use bells::Bell;
use hands::Hand;
use hooks::Hooks;
use std::sync::Wait;
use turns::Desk;

/// Has a turn, and waits.
pub(crate) fn serve<R: Wait>(rt: &R, desk: &Desk, bell: &Bell, hand: &mut Hand) {
    let turn = desk.turn(rt, hand);
    %s
}
"""
ENDS, WAITS = "turn.end_before_send();", "bell.wait_past(rt, hand, 0);"
REFUSED = "error[borrow-e0499]: cannot borrow `*hand` as mutable more than once at a time"
# where a thread begins that takes desks or waits for others, and the functions by which one waits
BEGINS = {
    "server/src/staff.rt": "spawn(move || {",
    "server_releasing/src/writer.rt": "pub fn write_rests",
    "server_consoles/src/desk.rt": "pub fn answer_all",
}
WAITING = {
    "kernel_shared/src/bells.rt": ["wait_past"],
    "server_attending/src/durable.rt": ["await_durable"],
    "server_releasing/src/writer.rt": ["wait_for_release", "wait_for_place", "finish"],
}


def source(path):
    with open(os.path.join(CRATES, path), encoding="utf-8") as file:
        return file.read()


def checked(body):
    """Whether the compiler takes the crate with this body, and what it says."""
    with tempfile.TemporaryDirectory(prefix="newsd-hands-test-") as top:
        folder = os.path.join(top, "crates", "hands", "src")
        os.makedirs(folder)
        shutil.copy(os.path.join(TOP, "HANDLES"), top)
        for path in SOURCES:
            shutil.copy(os.path.join(CRATES, path), folder)
        for name, text in (("../../../crates.txt", "hands:\n"), ("outgoing.rt", OUTGOING), ("lib.rt", CRATE % body)):
            with open(os.path.join(folder, name), "w", encoding="utf-8") as file:
                file.write(text)
        done = subprocess.run(["rt", "check"], cwd=os.path.dirname(folder), stdin=subprocess.DEVNULL, capture_output=True, text=True)
        return done.returncode == 0, done.stdout + done.stderr


def a_desk_held_while_waiting_does_not_compile():
    """And one that is let go before does."""
    is_taken, said = checked("%s\n    %s" % (ENDS, WAITS))
    if not is_taken:
        yield "a thread that lets its desk go before it waits isn't taken: " + said
    is_taken, said = checked("%s\n    %s" % (WAITS, ENDS))
    if is_taken or REFUSED not in said:
        yield "a thread that waits with a desk isn't refused for that: " + said


def who_waits_asks_for_the_hand():
    """Each function by which a session's thread waits for others, and the one by which it takes a desk."""
    for path, names in {**WAITING, "server_outgoing/src/turns.rt": ["turn"]}.items():
        for name in names:
            found = re.search(r"fn %s<.*?>\((.*?)\)" % name, source(path), re.S)
            if not found or not re.search(r"hand: &('a )?mut Hand\b", found.group(1)):
                yield "%s of %s doesn't ask for a hand" % (name, path)


def a_thread_has_one_hand():
    """A hand is made where a thread begins, and nowhere else; tests play threads. Nothing else makes one or doubles it."""
    for folder, _, files in os.walk(CRATES):
        for name in files:
            path = os.path.relpath(os.path.join(folder, name), CRATES)
            if not name.endswith(".rt") or "/out/" in path or path.startswith("test_"):
                continue
            text = source(path)
            count = text.count("Hand::new()")
            if count != (path in BEGINS):
                yield "%s makes %d hands" % (path, count)
            elif count and not re.search(re.escape(BEGINS[path]) + r"(?:(?!\n    }\n).)*Hand::new\(\)", text, re.S):
                yield "%s makes a hand where no thread begins" % path
    text = source(SOURCES[0])
    if "#[derive(Drop)]\npub struct Hand(());" not in text or text.count("Hand(())") != 2 or "impl " in text.replace("impl Hand {", "", 1):
        yield "a hand can be doubled, or made otherwise"


TESTS = [a_desk_held_while_waiting_does_not_compile, who_waits_asks_for_the_hand, a_thread_has_one_hand]

if __name__ == "__main__":
    sys.exit(main(TESTS))
