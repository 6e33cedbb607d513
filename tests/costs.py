#!/usr/bin/env python3
"""Checks of what a crate may cost, which need no program.
costs.py [NEWSD [NAME..]]"""
import os
import subprocess
import sys

TOP = os.path.dirname(os.path.dirname(os.path.abspath(__file__)))
sys.dont_write_bytecode = True
sys.path.insert(0, os.path.join(TOP, "bench", "modules"))
from calls import Code  # noqa: E402
from pages import main  # noqa: E402

# bodies, and how many fallible calls each has in a row
BODIES = [
    ("a()", 0),
    ("a()?; b()?", 2),
    ("a(b()?)?", 2),
    ("a()?.b()?.c(&[d()?])?", 4),
    ("// a()?\n/* b()? */ \"c()?\\\"?\"; b\"?\"; r#\"\"?\"#; '?'; d::<'a>()?", 1),
    ("match a()? { B => b()?, C { d, .. } => { c()?; d()?; } _ => e, }; f()?", 4),
    ("match a { B if c()? => b()?, D => d()? }", 2),
    ("if a()? { b()?; c()? } else if d { e()? } else { f()?; g()?; h()? }", 4),
    ("if let A { b } = c()? { d()? }; e()?", 3),
    ("let Some(a) = b()? else { return Err(c()?) }; d()?", 3),
    ("for a in b()? { c()?; d()? }", 3),
    ("a(|b| { c()? })?", 2),
    ("matches!(a, Some(b) if b > 1); c()?", 1),
    ("fn b() { c()?; d()? } a()?", 1),
]
# the most lines of a library's Rattle
MOST_LINES = 1000
FUNCTION = "fn a<T: ?Sized>(b: &T) -> Result<[u8; 4], E> where T: F\n    requires { b ≡ 0 }\n    ensures c { codes \"?\" ≡ d }\n{ %s }"


def no_function_has_many_fallible_calls_in_a_row():
    ran = subprocess.run([os.path.join(TOP, "bench", "fallible-calls")], stdout=subprocess.PIPE, stderr=subprocess.STDOUT, text=True)
    return ran.stdout.splitlines() or ["bench/fallible-calls has failed"] if ran.returncode else []


def fallible_calls_are_counted_along_a_path():
    for body, calls in BODIES:
        found = next(Code(FUNCTION % body).functions()).calls
        if found != calls:
            yield "%s has %d, and %d are counted" % (body, calls, found)


def lines_of(folder):
    paths = [os.path.join(at, it) for at, _, files in os.walk(folder) for it in files if it.endswith(".rt")]
    return sum(len(open(it, encoding="utf-8").read().splitlines()) for it in paths)


def no_library_has_more_lines_than_it_may():
    """A program may have more: it is proved once, however many areas of tests it has."""
    crates = os.path.join(TOP, "crates")
    for crate in sorted(os.listdir(crates)):
        folder = os.path.join(crates, crate, "src")
        lines = lines_of(folder)
        if os.path.isfile(os.path.join(folder, "lib.rt")) and lines > MOST_LINES:
            yield "%s has %d lines of Rattle" % (crate, lines)


TESTS = [no_function_has_many_fallible_calls_in_a_row, fallible_calls_are_counted_along_a_path, no_library_has_more_lines_than_it_may]


if __name__ == "__main__":
    sys.exit(main(TESTS))
