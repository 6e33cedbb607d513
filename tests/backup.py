#!/usr/bin/env python3
"""System tests of the backup of a running server. backup.py NEWSD [NAME..]"""
import os
import re
import socket
import stat
import subprocess
import sys
import tempfile
import threading
import time

from asking import Connection, ask, serve, socket_of
from newsd import SECONDS, article, wait_until
from orders import Posters, articles_of
from playing import Skipped, TooSlow, main, measured, side_by_side

# a volume whose backup takes some time, in blocks of 4,096 octets, and the seconds in which it is made
LARGE, SECONDS_OF_A_BACKUP = 65536, 60
# a caller beside a backup waits no longer than this beyond what it waits without one, in seconds
MOST_HELD_UP = 0.05
EXISTS = b"E11 Exists: something stands at the path of the backup\n"
NO_PATH = b"E14 Bad: the path of a backup begins with /\n"
HALTED = b"E4 Halted\n"
CHANGES = re.compile(rb"changes (\d+)\n\Z")


def beside(volume, name="copy"):
    return os.path.join(os.path.dirname(volume.path), name)


def backed_up(volume, path):
    """The changes that a backup has which is made now."""
    status, said, faults = ask(volume, "backup", path)
    assert (status, faults) == (0, b"") and CHANGES.match(said), (status, said, faults)
    assert not os.path.lexists(path + ".part")
    return int(CHANGES.match(said)[1])


def as_volume(volume, path):
    """The volume with this path, which the program opens as any other."""
    other = volume.another("of-" + os.path.basename(path))
    os.replace(path, other.path)
    return other


def large(volume):
    return volume.another("large", blocks=LARGE)


def seen(path):
    there = os.lstat(path)
    return there.st_ino, there.st_mode, there.st_size, there.st_mtime_ns


def refused(volume, path, why):
    """A backup is refused for this cause, and leaves what stands there, and beside it nothing that wasn't there."""
    folder = os.path.dirname(path)
    before = seen(path) if os.path.lexists(path) else None
    there = sorted(os.listdir(folder)) if os.path.isdir(folder) else None
    assert ask(volume, "backup", path) == (1, why, b""), (ask(volume, "backup", path), why)
    assert (seen(path) if os.path.lexists(path) else None) == before
    assert (sorted(os.listdir(folder)) if os.path.isdir(folder) else None) == there


def it_has_what_was_durable(volume):
    """It is a volume like any other: it is read, served, and backed up in turn."""
    volume.make_group()
    with serve(volume) as server, server.call() as caller:
        for number in range(1, 41):
            assert caller.post(article(number, body="x" * (number * 500))) == "240 Article received"
        assert backed_up(volume, beside(volume)) == 41
        assert backed_up(volume, beside(volume, "again")) == 41
        assert caller.post(article(41)) == "240 Article received"
    first, again = (as_volume(volume, beside(volume, name)) for name in ("copy", "again"))
    assert first.dump() == again.dump() == ["spool 41", *volume.dump()[1:42]]
    assert first.export() == again.export()
    with serve(first) as server, server.call() as caller:
        assert caller.ask("GROUP x.a") == "211 40 1 40 x.a"
        assert caller.post(article("of-the-copy")) == "240 Article received"
        assert backed_up(first, beside(first)) == 42
    assert as_volume(first, beside(first)).dump() == first.dump()


def an_empty_volume_has_a_backup(volume):
    with serve(volume):
        assert backed_up(volume, beside(volume)) == 0
        assert stat.S_ISREG(os.lstat(beside(volume)).st_mode)
        assert os.stat(beside(volume)).st_size == os.stat(volume.path).st_size
    assert as_volume(volume, beside(volume)).dump() == ["spool 0"]


def one_beside_posters_has_all_that_was_acknowledged_before(volume):
    """Each backup has the first changes of the volume, and among them each article whose reply came before the backup was asked for."""
    volume = large(volume)
    volume.make_group()
    before, changes = [], []
    with serve(volume, "--most-from", "64") as server:
        posters = Posters(server, "backup")
        for number in range(6):
            time.sleep(0.2)
            with posters.lock:
                before.append(set(posters.told))
            changes.append(backed_up(volume, beside(volume, "copy%d" % number)))
        assert server.order("stop") == "stopped" and server.end() == (0, "")
        posters.end()
    assert changes == sorted(changes) and changes[0] < changes[-1], changes
    whole = volume.dump()
    for number, (told, durable) in enumerate(zip(before, changes)):
        copy = as_volume(volume, beside(volume, "copy%d" % number))
        assert copy.dump() == ["spool %d" % durable, *whole[1:durable + 1]]
        assert told <= articles_of(copy), len(told - articles_of(copy))
        os.remove(copy.path)
    print("  changes: %s" % changes, flush=True)


def what_stands_at_its_path_stays(volume):
    """A file, a folder, a pipe, a socket, the volume itself, a link to it and one to nothing."""
    with serve(volume):
        path = beside(volume)
        with open(path, "wb") as file:
            file.write(b"mine")
        refused(volume, path, EXISTS)
        os.remove(path)
        for make, remove in ((os.mkdir, os.rmdir), (os.mkfifo, os.remove)):
            make(path)
            refused(volume, path, EXISTS)
            remove(path)
        with socket.socket(socket.AF_UNIX) as there:
            there.bind(path)
            refused(volume, path, EXISTS)
        os.remove(path)
        for to in (volume.path, beside(volume, "nothing")):
            os.symlink(to, path)
            refused(volume, path, EXISTS)
            os.remove(path)
        before = seen(volume.path)
        refused(volume, volume.path, EXISTS)
        assert seen(volume.path)[:3] == before[:3] and not os.path.lexists(volume.path + ".part")


def what_stands_beside_its_path_is_not_followed(volume):
    """A link, a pipe and a file that a killed server left go; a folder stays, and so does a volume that is served."""
    with serve(volume):
        path, part = beside(volume), beside(volume) + ".part"
        target = beside(volume, "target")
        with open(target, "wb") as file:
            file.write(b"mine")
        for make in (lambda: os.symlink(target, part), lambda: os.symlink(volume.path, part), lambda: os.mkfifo(part),
                     lambda: open(part, "wb").close()):
            make()
            assert backed_up(volume, path) == 0
            os.remove(path)
        with open(target, "rb") as file:
            assert file.read() == b"mine"
        os.mkdir(part)
        status, said, _ = ask(volume, "backup", path)
        assert status == 1 and said.startswith(b"E1 Fault: the file can't be opened: "), said
        os.rmdir(part)
        refused(volume, os.path.join(path, "below"), b"E1 Fault: the file isn't there\n")
    part = volume.another("part")
    os.rename(part.path, part.path + ".part")
    path, part.path = part.path, part.path + ".part"
    with serve(part) as server:
        refused(part, path, b"E1 Fault: the volume is in use by a server or another command\n")
        assert server.order("stop") == "stopped" and server.end() == (0, "")
    assert part.dump() == ["spool 0"]


def a_path_begins_with_a_slash(volume):
    with serve(volume) as server:
        for path in ("copy", "./copy", "", " ", "copy with spaces"):
            assert ask(volume, "backup " + path) == (1, NO_PATH, b""), path
        assert ask(volume, "backup") == (1, b"E14 Bad\n", b"")
        with Connection(volume) as connection:
            connection.send(b"backup /\xff\n")
            assert connection.answer() == [NO_PATH.decode().rstrip("\n")]
        assert ask(volume, "backup /" + "x" * 1017) == (1, b"E14 Bad\n", b"")
        status, said, _ = ask(volume, "backup /" + "x" * 900)
        assert status == 1 and said.startswith(b"E1 Fault: "), said
        assert backed_up(volume, beside(volume, "copy with spaces")) == 0
        # only a console has a thread of its own for it
        assert server.order("backup " + beside(volume, "other")) == "E14 Bad"
        assert not os.path.lexists(beside(volume, "other"))


def two_are_made_one_after_the_other(volume):
    """At two paths both are made, at one path one of them; and other consoles are answered meanwhile."""
    volume = large(volume)
    volume.make_group()
    answers = {}

    def back_up(name, path):
        answers[name] = ask(volume, "backup", path)

    with serve(volume):
        side_by_side(*[lambda name=name: back_up(name, beside(volume, name)) for name in ("one", "two", "three")],
                     lambda: [ask(volume, "status") for _ in range(10)])
        assert set(answers.values()) == {(0, b"changes 1\n", b"")}, answers
        side_by_side(*[lambda name=name: back_up(name, beside(volume, "same")) for name in ("one", "two")])
    said = sorted(answers[name][1] for name in ("one", "two"))
    in_use = b"E1 Fault: the volume is in use by a server or another command\n"
    assert said[1] == b"changes 1\n" and said[0] in (in_use, EXISTS), said
    for name in ("one", "two", "three", "same"):
        assert as_volume(volume, beside(volume, name)).dump() == volume.dump(), name


def a_stop_ends_one(volume):
    """What was written of it goes. It may be whole before."""
    ended_while(large(volume), lambda server: server.order("stop"), (0, ""))


def a_fault_ends_one(volume):
    """The server's device fails, or the file of the backup."""
    def fail(server):
        server.have_writes_fail()
        with server.call() as caller:
            caller.post(article("lost"))
    ended_while(large(volume), fail, None)


def ended_while(volume, end, ended):
    volume.make_group()
    path, answers = beside(volume), []
    with serve(volume) as server:
        asking = threading.Thread(target=lambda: answers.append(ask(volume, "backup", path)))
        asking.start()
        wait_until(lambda: os.path.lexists(path + ".part") or answers)
        end(server)
        if ended is not None:
            assert server.end() == ended
        else:
            assert server.process.wait(SECONDS) == 1
        asking.join(SECONDS)
    status, said, _ = answers[0]
    assert not os.path.lexists(path + ".part"), answers
    if status == 0:
        assert as_volume(volume, path).dump() == volume.dump()
    else:
        # the server's end waits a second for the answer
        is_said = said == HALTED or said.startswith(b"E1 Fault") if status == 1 else (status, said) == (2, b"")
        assert is_said and not os.path.lexists(path), answers
    print("  %s" % (said.decode().rstrip() or "the answer was cut"), flush=True)


def is_no_volume(volume, part):
    done = volume.run("dump", part)
    assert done.returncode == 1 and done.stderr.startswith(b"newsd: E3 NotAVolume"), done


def one_that_a_kill_left_is_replaced(volume):
    volume = large(volume)
    volume.make_group()
    path, part = beside(volume), beside(volume) + ".part"
    with serve(volume) as server:
        asking = threading.Thread(target=lambda: ask(volume, "backup", path))
        asking.start()
        wait_until(lambda: os.path.lexists(part) or os.path.lexists(path))
        server.kill()
        asking.join(SECONDS)
    if os.path.lexists(part):
        is_no_volume(volume, part)
    elif os.path.lexists(path):
        os.remove(path)
    with serve(volume):
        assert backed_up(volume, path) == 1
    assert as_volume(volume, path).dump() == volume.dump()


def who_asks_and_goes_has_it_made(volume):
    """The console that asked is closed meanwhile."""
    volume = large(volume)
    path = beside(volume)
    with serve(volume) as server:
        with socket.socket(socket.AF_UNIX) as console:
            console.connect(socket_of(volume))
            console.sendall(b"backup %s\n" % path.encode())
        wait_until(lambda: os.path.lexists(path), SECONDS_OF_A_BACKUP)
        assert server.order("stop") == "stopped" and server.end() == (0, "")
    assert as_volume(volume, path).dump() == ["spool 0"]


def a_full_file_system_refuses_one(volume):
    """It is named, what was written goes, and the server goes on."""
    volume.make_group()
    with tempfile.TemporaryDirectory(prefix="newsd-small-") as folder:
        if subprocess.run(["mount", "-t", "tmpfs", "-o", "size=8m", "tmpfs", folder], capture_output=True).returncode != 0:
            raise Skipped("no file system can be mounted")
        try:
            with serve(volume) as server, server.call() as caller:
                path = os.path.join(folder, "copy")
                refused(volume, path, b"E1 Fault: no space left on the file system\n")
                assert os.listdir(folder) == []
                assert caller.post(article(1)) == "240 Article received"
                assert backed_up(volume, beside(volume)) == 2
        finally:
            subprocess.run(["umount", folder], check=True)
    assert as_volume(volume, beside(volume)).dump() == volume.dump()


def callers_wait_for_none(volume):
    """While one is made of a larger volume, no post and no line takes long, but for what the machine itself takes."""
    volume = large(volume)
    volume.make_group()
    with serve(volume) as server:
        measured(lambda: none_is_held_up(volume, server))


def none_is_held_up(volume, server):
    path, longest = beside(volume), {}
    for number, what in enumerate(("before", "beside")):
        took, ended = [], threading.Event()
        asking = threading.Thread(target=lambda: (backed_up(volume, path) if what == "beside" else time.sleep(1), ended.set()))
        with server.call() as reader:
            asking.start()
            while not ended.is_set():
                began = time.monotonic()
                assert reader.ask("DATE").startswith("111 ")
                took.append(time.monotonic() - began)
            asking.join(SECONDS)
        longest[what] = max(took)
    os.remove(path)
    print("  the longest line took %.1f ms, and %.1f beside a backup" % (1000 * longest["before"], 1000 * longest["beside"]), flush=True)
    if longest["beside"] > longest["before"] + MOST_HELD_UP:
        raise TooSlow("a line took %.1f ms beside a backup" % (1000 * longest["beside"]))


TESTS = [
    it_has_what_was_durable,
    an_empty_volume_has_a_backup,
    one_beside_posters_has_all_that_was_acknowledged_before,
    what_stands_at_its_path_stays,
    what_stands_beside_its_path_is_not_followed,
    a_path_begins_with_a_slash,
    two_are_made_one_after_the_other,
    a_stop_ends_one,
    a_fault_ends_one,
    one_that_a_kill_left_is_replaced,
    who_asks_and_goes_has_it_made,
    a_full_file_system_refuses_one,
    callers_wait_for_none,
]

if __name__ == "__main__":
    sys.exit(main(TESTS))
