#!/usr/bin/env python3
"""System tests of backups of a volume that is served: atomic copies of its file. They need root, a loop device, and the tools of the
file systems; what isn't there is skipped. snapshots.py NEWSD [NAME..]"""
import os
import shutil
import subprocess
import sys
import threading
import time

from newsd import Caller, Volume, article, message_id
from playing import Skipped, main

IMAGE_OCTETS = 700 << 20
POSTERS = 8
COPIES = 8
# between two copies, in seconds
PAUSE = 0.3


class Mounted:
    """A file system of this kind in a file, for as long as the test has it."""

    def __init__(self, kind, directory):
        self.kind, self.image, self.at = kind, os.path.join(directory, "image"), os.path.join(directory, kind)

    def __enter__(self):
        if os.geteuid() != 0 or not shutil.which("mkfs." + self.kind):
            raise Skipped("this needs root and mkfs.%s" % self.kind)
        with open(self.image, "wb") as file:
            file.truncate(IMAGE_OCTETS)
        subprocess.run(["mkfs." + self.kind, self.image], stdout=subprocess.DEVNULL, stderr=subprocess.DEVNULL, check=True)
        os.mkdir(self.at)
        done = subprocess.run(["mount", "-o", "loop", self.image, self.at], capture_output=True, text=True)
        if done.returncode:
            raise Skipped("no %s can be mounted here: %s" % (self.kind, done.stderr.strip()))
        return self

    def __exit__(self, *_):
        subprocess.run(["umount", self.at], check=True)


class Posters:
    """Callers that post until they are told to end, and the ids that were acknowledged to them."""

    def __init__(self, server):
        self.server, self.told, self.lock, self.is_ending = server, set(), threading.Lock(), False
        self.threads = [threading.Thread(target=self.post, args=(name,), daemon=True) for name in range(POSTERS)]
        for thread in self.threads:
            thread.start()

    def post(self, name):
        with Caller(self.server.port) as caller:
            for number in range(100000):
                if self.is_ending:
                    return
                own = "%d.%d" % (name, number)
                assert caller.post(article(own, body="x" * 3000)) == "240 Article received"
                with self.lock:
                    self.told.add(message_id(own))

    def so_far(self):
        with self.lock:
            return set(self.told)

    def end(self):
        self.is_ending = True
        for thread in self.threads:
            thread.join(30)


def ids_of(volume, path):
    """The articles of a copy, which is opened as after a crash."""
    done = volume.run("dump", path)
    assert (done.returncode, done.stderr) == (0, b""), (path, done.stderr)
    lines = done.stdout.decode().splitlines()
    assert lines[0] == "spool %d" % (len(lines) - 1), lines[0]
    found = [line.split()[2] for line in lines[1:] if line.split()[1] == "article"]
    texts = volume.run("export", path)
    assert texts.returncode == 0 and texts.stdout.count(b"#! rnews ") == len(found), path
    return set(found)


def each_copy_has_what_was_acknowledged(volume, kind, copy):
    """Copies are made while posters post. A copy has all that was acknowledged before it was begun."""
    with Mounted(kind, os.path.dirname(volume.path)) as mounted:
        home = os.path.join(mounted.at, "news")
        if kind == "btrfs":
            subprocess.run(["btrfs", "subvolume", "create", home], stdout=subprocess.DEVNULL, check=True)
        else:
            os.mkdir(home)
        served = Volume(volume.program, home, blocks=16384, inodes=16384)
        served.make_group()
        with served.serve(words=["--quiet", "--most-from", "64"]) as server:
            posters, copies = Posters(server), []
            for number in range(COPIES):
                time.sleep(PAUSE)
                before = posters.so_far()
                copies.append((before, copy(mounted.at, home, number)))
            posters.end()
            assert server.order("stop") == "stopped"
            assert server.process.wait(10) == 0
        counts = []
        for before, path in copies:
            there = ids_of(volume, path)
            assert before <= there, (path, len(before), len(there), sorted(before - there)[:5])
            counts.append((len(before), len(there)))
        # the posters went on; on a busy machine two copies may follow one another with no post between them
        assert counts[0][0] < counts[-1][0], counts
        print("  acknowledged before, and there: %s" % counts, flush=True)


def reflink(top, home, number):
    path = os.path.join(top, "copy%d" % number)
    subprocess.run(["cp", "--reflink=always", os.path.join(home, "volume"), path], check=True)
    return path


def snapshot(top, home, number):
    path = os.path.join(top, "snapshot%d" % number)
    subprocess.run(["btrfs", "subvolume", "snapshot", home, path], stdout=subprocess.DEVNULL, check=True)
    return os.path.join(path, "volume")


def a_reflink_on_xfs_is_a_backup(volume):
    each_copy_has_what_was_acknowledged(volume, "xfs", reflink)


def a_reflink_on_btrfs_is_a_backup(volume):
    each_copy_has_what_was_acknowledged(volume, "btrfs", reflink)


def a_snapshot_of_btrfs_is_a_backup(volume):
    each_copy_has_what_was_acknowledged(volume, "btrfs", snapshot)


TESTS = [
    a_reflink_on_xfs_is_a_backup,
    a_reflink_on_btrfs_is_a_backup,
    a_snapshot_of_btrfs_is_a_backup,
]


if __name__ == "__main__":
    sys.exit(main(TESTS))
