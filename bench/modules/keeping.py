"""What runs of bin/rt-ci proved, kept on the machine for a toolchain that keeps nothing by itself.

An entry is a folder whose name is the sum of all that a check rests on: the toolchain, the handles, the crate's line and files, and the
libraries below it. It holds what the check left in the crate's folder `out`. A library fits only those that it was built over, so each has
a name of its own, which the sums of the crates above it take in. Where two runs prove the same, the first one's library stands.

Only what passed is kept. Each run checks the layout of all files, and runs every program and test again."""
import glob
import hashlib
import os
import secrets
import shutil

# the file beside a library that holds its name
NAME = "kept-as"


def place():
    """The folder of what is kept."""
    return os.path.join(os.environ.get("XDG_CACHE_HOME") or os.path.expanduser("~/.cache"), "newsd-gate")


def toolchain_sum(kit):
    """A sum of the toolchain's programs, and of what it says of its libraries."""
    said = hashlib.sha256()
    for path in sorted(glob.glob(os.path.join(kit, "bin", "*")) + glob.glob(os.path.join(kit, "*WHAT*")) + [os.path.join(kit, "KIT-ID")]):
        with open(path, "rb") as file:
            said.update(repr((os.path.basename(path), hashlib.sha256(file.read()).digest())).encode())
    return said.digest()


class Keeping:
    """What is kept for a toolchain, as its program `rt` knows crates."""

    def __init__(self, rt):
        self.at, self.rtlib, self.toolchain = place(), rt.rtlib, toolchain_sum(rt.KIT)

    def own_sum(self, crate):
        """A sum of a crate's own files, its line, the handles and the toolchain."""
        said = hashlib.sha256(repr((self.toolchain, crate.allowed, crate.said)).encode())
        for path in self.rtlib.files_of(crate.folder):
            with open(path, "rb") as file:
                said.update(repr((os.path.relpath(path, crate.folder), file.read())).encode())
        return said.hexdigest()

    def entry(self, crate, *parts):
        """Where a result of a crate stands. The libraries below the crate are built."""
        rests_on = self.own_sum(crate), [(it.name, name_of(it)) for it in crate.below()], parts
        return os.path.join(self.at, hashlib.sha256(repr(rests_on).encode()).hexdigest())

    def take(self, entry, crate):
        """Gives the crate what an entry holds. Whether there is one."""
        if not os.path.isdir(entry):
            return False
        for name in os.listdir(entry):
            to = os.path.join(crate.folder, "out", name)
            remove(to)
            copy(os.path.join(entry, name), to)
        return True

    def put(self, entry, crate, made):
        """Keeps what a check left in these files and folders of `out`. Where another run did so first, the crate gets that one's."""
        part = "%s.%s" % (entry, secrets.token_hex(8))
        os.makedirs(part)
        for name in made:
            copy(os.path.join(crate.folder, "out", name), os.path.join(part, name))
        try:
            os.rename(part, entry)
        except OSError:
            shutil.rmtree(part)
            self.take(entry, crate)


def name_of(crate):
    with open(os.path.join(os.path.dirname(crate.rlib), NAME)) as file:
        return file.read()


def remove(path):
    if os.path.isdir(path):
        shutil.rmtree(path)
    elif os.path.lexists(path):
        os.remove(path)


def copy(path, to):
    if os.path.isdir(path):
        shutil.copytree(path, to)
    elif os.path.isfile(path):
        shutil.copy2(path, to)


def made_by(crate, tests):
    """What a check leaves in the crate's folder `out` for later steps."""
    if tests:
        return [crate.name + "_tests"]
    return [crate.name, crate.name + ".by-rattle"] if crate.is_program else ["rlib"]


def install(rt):
    """Has `rt ci` take what earlier runs kept, and keep what passes."""
    keeping, prove, try_edits = Keeping(rt), rt.Crate.ci, rt.must_fail_all

    def ci(crate, flags, tests):
        entry = keeping.entry(crate, "tests" if tests else "proof")
        if keeping.take(entry, crate):
            rt.say("kept from an earlier run", crate.out)
            return 0
        status = prove(crate, flags, tests)
        if not status:
            if not tests and crate.makes_rlib():
                with open(os.path.join(os.path.dirname(crate.rlib), NAME), "w") as file:
                    file.write(secrets.token_hex(16))
            keeping.put(entry, crate, made_by(crate, tests))
        return status

    def must_fail_all(crate, edits, flags):
        entries = {}
        for edit in edits:
            with open(edit, "rb") as file:
                entries[edit] = keeping.entry(crate, "edit", os.path.basename(edit), file.read())
        new = [it for it in edits if not os.path.isdir(entries[it])]
        outcomes = dict(zip(new, try_edits(crate, new, flags)))
        for edit, (is_refused, _) in outcomes.items():
            if is_refused:
                keeping.put(entries[edit], crate, [])
        label = "must-fail %s/%s: refused by an earlier run of the same"
        return [outcomes.get(it) or (True, label % (crate.name, os.path.basename(it))) for it in edits]

    rt.Crate.ci, rt.must_fail_all = ci, must_fail_all
