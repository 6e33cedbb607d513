"""The toolchain's program `rt` as a module, so that a script makes the words of a check as `rt` does."""
import functools
import importlib.machinery
import importlib.util
import os
import shutil
import sys


def path_of_rt():
    """Where `rt` is, none where it isn't on the path."""
    path = shutil.which("rt")
    return path and os.path.realpath(path)


def loaded(path):
    """The program at this path, as a module. `rattle-kit-13b` looks for the crates below a crate, and sums their files, along each path
    that leads to them. The crates of this repository have more than a million paths, so both are remembered for each crate. They depend
    on crates.txt and on the files of the crates alone, and no verdict rests on the sums."""
    loader = importlib.machinery.SourceFileLoader("rt", path)
    module = importlib.util.module_from_spec(importlib.util.spec_from_loader("rt", loader))
    sys.modules["rt"] = module
    loader.exec_module(module)
    crate = module.rtlib.Crate
    crate.below, crate.stamp = remembered(crate.below), remembered(crate.stamp)
    return module


def keeps(rt):
    """Whether this toolchain keeps on the machine what it proved, and proves single crates on a copy, as `rattle-kit-13f` does."""
    return hasattr(rt, "Kept")


def remembered(method):
    """A method of a crate that takes nothing. For a crate of the same folder it answers what it answered the first time."""
    known = {}

    @functools.wraps(method)
    def answer(crate):
        if crate.folder not in known:
            known[crate.folder] = method(crate)
        found = known[crate.folder]
        return [*found] if isinstance(found, list) else found

    return answer
