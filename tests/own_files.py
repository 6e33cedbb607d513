#!/usr/bin/env python3
"""System tests of what the program writes beside a volume, and of what others do to the volume's file. own_files.py NEWSD [NAME..]"""
import os
import resource
import shutil
import stat
import subprocess
import sys
import time

from newsd import HOST, SECONDS, article, free_port, wait_until
from playing import Skipped, main

SIZES = ("--host", HOST, "--blocks", "1024", "--inodes", "64")
SECRET = "secret\n"
# for a server that ends, and for a command that would hang
SECONDS_OF_AN_END = 15
# users and a group that nobody has
OWNER, OTHER = 54321, 54322
# fewer octets than a volume has
TOO_FEW = 1 << 20
# after a reply, until the device has written all that belongs to it
PAUSE = 0.3
# so often a command is killed, each time this much later
KILLS, LATER = 12, 0.002
REPLACED = "event=fault error=replaced"
FOREIGN = "newsd: E14 Bad: --metrics FILE or FILE.part isn't empty, and newsd hasn't written it\n"
SAID = "newsd: E1 Fault: the file was replaced, moved, removed, cut or changed by another\n"


def needs_root():
    if os.getuid() != 0:
        raise Skipped("only root has files of other users")


def secret_at(path, mode=0o600):
    """A file of this user's own."""
    with open(path, "w") as file:
        file.write(SECRET)
    os.chmod(path, mode)
    return path


def is_secret(path, mode=0o600):
    """Whether it is as it was."""
    seen = os.lstat(path)
    with open(path) as file:
        return file.read() == SECRET and (seen.st_uid, stat.S_IMODE(seen.st_mode)) == (os.getuid(), mode)


def limited(words, octets):
    """A command whose files may not grow larger."""
    def limit():
        resource.setrlimit(resource.RLIMIT_FSIZE, (octets, octets))
    return subprocess.run(words, capture_output=True, timeout=SECONDS_OF_AN_END, preexec_fn=limit, restore_signals=False)


def refused(volume, *words):
    """What a server says that doesn't start."""
    done = volume.run("serve", volume.path, "--port", str(free_port()), *words, seconds=SECONDS_OF_AN_END)
    assert (done.returncode, done.stdout) == (1, b""), done
    return done.stderr.decode()


def metrics_are_not_written_over_a_volume(volume):
    """However FILE or FILE.part names it."""
    volume.make_group()
    before = volume.dump()
    folder = os.path.dirname(volume.path)
    link, second, beside, soft, way = (os.path.join(folder, name) for name in ("link", "second", "beside", "soft", "way"))
    os.symlink(volume.path, link)
    os.link(volume.path, second)
    os.link(volume.path, beside + ".part")
    os.symlink(volume.path, soft + ".part")
    os.symlink(folder, way)
    for path in (volume.path, os.path.join(folder, ".", "volume"), os.path.relpath(volume.path), os.path.join(way, "volume"), link, second,
                 beside, soft):
        said = refused(volume, "--metrics", path)
        assert said == "newsd: E14 Bad: --metrics FILE or FILE.part is the volume\n", (path, said)
    assert volume.dump() == before and not os.path.exists(volume.path + ".part")


def metrics_are_not_written_over_what_is_no_file_of_ours(volume):
    """Neither where FILE is to be nor where FILE.part is. An empty file is nobody's, and one of ours may be written again."""
    path = volume.path + ".txt"
    for at in (path, path + ".part"):
        secret_at(at)
        assert refused(volume, "--metrics", path) == FOREIGN
        assert is_secret(at)
        os.remove(at)
    os.mkfifo(path)
    assert refused(volume, "--metrics", path) == "newsd: E14 Bad: --metrics FILE is no regular file\n"
    os.remove(path)
    open(path, "w").close()
    for _ in range(2):
        with volume.serve(words=["--metrics", path]) as server:
            assert server.order("stop") == "stopped" and server.end()[0] == 0
        shutil.copy(path, path + ".part")
    assert open(path).read().startswith("# HELP newsd_")


def what_stands_beside_the_metrics_is_not_written_through(volume):
    """Neither a link nor a pipe at FILE.part, at the start or later."""
    path, victim = volume.path + ".prom", secret_at(volume.path + ".victim")
    os.symlink(victim, path + ".part")
    with volume.serve(words=["--metrics", path]) as server:
        wait_until(lambda: os.path.exists(path) and os.path.getsize(path), SECONDS)
        assert is_secret(victim) and not os.path.lexists(path + ".part")
        for make in (os.mkfifo, lambda part: os.symlink(victim, part), lambda part: os.link(victim, part)):
            written = os.stat(path).st_mtime_ns
            make(path + ".part")
            server.order("status")
            wait_until(lambda: os.stat(path).st_mtime_ns != written and not os.path.lexists(path + ".part"), SECONDS)
        assert server.order("stop") == "stopped" and server.end()[0] == 0
    assert is_secret(victim)


def a_pipe_beside_the_metrics_holds_up_no_start(volume):
    path = volume.path + ".prom"
    os.mkfifo(path + ".part")
    words = ("serve", volume.path, "--port", str(free_port()), "--metrics", path)
    volume.run(*words, given=b"stop\n", seconds=SECONDS_OF_AN_END).check_returncode()
    assert os.path.getsize(path)


def a_renewal_writes_through_nothing(volume):
    """A link or a pipe at `.part` is replaced, and what a link names keeps its octets, its owner and its mode."""
    volume.make_group()
    victim, new = secret_at(volume.path + ".victim"), volume.path + ".new"
    before = volume.dump()
    in_place, beside = (("renew", volume.path, "--in-place"), volume.path), (("renew", volume.path, new), new)
    for (words, at), make in ((in_place, os.symlink), (beside, os.link), (in_place, lambda _, part: os.mkfifo(part))):
        make(victim, at + ".part")
        volume.run(*words).check_returncode()
        assert is_secret(victim) and stat.S_ISREG(os.lstat(at).st_mode) and volume.dump() == before
        assert not os.path.lexists(at + ".part")


def a_renewal_by_root_gives_nothing_away(volume):
    """In the folder of another user, who has put a link where the new volume is made."""
    needs_root()
    victim = secret_at(volume.path + ".victim")
    folder = os.path.join(os.path.dirname(volume.path), "service")
    os.mkdir(folder)
    path = os.path.join(folder, "volume")
    shutil.move(volume.path, path)
    os.chmod(path, 0o640)
    for it in (folder, path):
        os.chown(it, OWNER, OWNER)
    os.symlink(victim, path + ".part")
    volume.run("renew", path, "--in-place").check_returncode()
    seen = os.lstat(path)
    assert (seen.st_uid, seen.st_gid, stat.S_IMODE(seen.st_mode)) == (OWNER, OWNER, 0o640)
    assert is_secret(victim) and os.listdir(folder) == ["volume"]


def who_may_not_give_the_owner_is_refused_before_the_copy(volume):
    needs_root()
    folder = os.path.dirname(volume.path)
    os.chmod(folder, 0o777)
    os.chmod(volume.path, 0o666)
    os.chown(volume.path, OWNER, OWNER)
    before = volume.dump()
    done = volume.run("renew", volume.path, "--in-place", user=OTHER)
    assert (done.returncode, done.stderr) == (1, b"newsd: E1 Fault: permission denied\n"), done
    assert volume.dump() == before and os.listdir(folder) == ["volume"]


def a_renewal_beside_the_volume_itself(volume):
    """The old volume is never taken for what a killed renewal left. A second name of it, as a killed `format` leaves it, goes."""
    before = volume.dump()
    part = volume.path + ".part"
    os.rename(volume.path, part)
    done = volume.run("renew", part, volume.path)
    assert done.returncode == 1 and b"the volume is in use" in done.stderr and not os.path.exists(volume.path), done
    os.link(part, volume.path)
    volume.run("renew", volume.path, "--in-place").check_returncode()
    assert volume.dump() == before and not os.path.exists(part)


def a_new_volume_leaves_nothing_half(volume):
    """`format --new` can be run again after a kill. Of two at a time one makes the volume, or each takes the other's part for a foreign one:
    then both are refused, nothing is there, and the same command makes it."""
    path = volume.path + ".new"
    words = [volume.program, "format", path, "--new", *SIZES]
    for at in range(KILLS):
        begun = subprocess.Popen(words, stdout=subprocess.DEVNULL, stderr=subprocess.DEVNULL)
        time.sleep(at * LATER)
        begun.kill()
        begun.wait()
        if not os.path.exists(path):
            volume.run(*words[1:]).check_returncode()
        volume.run("dump", path).check_returncode()
        os.remove(path)
    two = [subprocess.Popen(words, stdout=subprocess.DEVNULL, stderr=subprocess.DEVNULL) for _ in range(2)]
    ended = sorted(it.wait() for it in two)
    assert ended in ([0, 1], [1, 1]) and os.path.exists(path) == (ended[0] == 0) and not os.path.exists(path + ".part"), ended
    if ended[0]:
        volume.run(*words[1:]).check_returncode()
    volume.run("dump", path).check_returncode()


def an_empty_file_is_replaced_whole(volume):
    """It keeps its owner and its mode, stays empty until it is replaced, and is found by a link."""
    path, link = volume.path + ".empty", volume.path + ".link"
    os.symlink(path, link)
    words = [volume.program, "format", link, "--new", *SIZES]
    for at in range(KILLS):
        open(path, "w").close()
        os.chmod(path, 0o640)
        begun = subprocess.Popen(words, stdout=subprocess.DEVNULL, stderr=subprocess.DEVNULL)
        time.sleep(at * LATER)
        begun.kill()
        begun.wait()
        if os.path.getsize(path) == 0:
            volume.run(*words[1:]).check_returncode()
        volume.run("dump", path).check_returncode()
        assert stat.S_IMODE(os.lstat(path).st_mode) == 0o640 and os.path.islink(link)
        os.remove(path)


def a_refusal_leaves_no_volume(volume):
    """Where there is no room, nothing is left that wasn't there, and the same command works once there is."""
    path, empty = volume.path + ".new", volume.path + ".empty"
    open(empty, "w").close()
    for at in (path, empty):
        words = [volume.program, "format", at, "--new", *SIZES]
        done = limited(words, TOO_FEW)
        assert (done.returncode, done.stderr) == (1, b"newsd: E1 Fault: the file may not grow so large\n"), done
        assert not os.path.exists(at + ".part") and (os.path.getsize(at) == 0 if at == empty else not os.path.exists(at))
        volume.run(*words[1:]).check_returncode()
        volume.run("dump", at).check_returncode()


def an_empty_file_in_a_folder_of_others(volume):
    """Nothing can be made beside it, so the volume is made within it, and a refusal makes it empty again."""
    needs_root()
    folder = os.path.dirname(volume.path)
    path = volume.path + ".empty"
    open(path, "w").close()
    os.chown(path, OWNER, OWNER)
    os.chmod(folder, 0o755)
    volume.run("format", path, "--new", *SIZES, user=OWNER).check_returncode()
    volume.run("dump", path).check_returncode()
    assert sorted(os.listdir(folder)) == ["volume", "volume.empty"]


def copied_over(kept):
    return lambda path: shutil.copyfile(kept, path)


def written_into(path):
    """Some octets, each as it was."""
    with open(path, "r+b") as file:
        octets = file.read(4096)
        file.seek(0)
        file.write(octets)


def moved_over(kept):
    return lambda path: os.rename(shutil.copy(kept, path + ".b"), path)


def says_replaced(server):
    return any(REPLACED in line.decode() for line in server.process.stderr)


def has_ended(server):
    """Whether it ends as one whose file was replaced, once it waits for no caller."""
    try:
        os.write(server.process.stdin.fileno(), b"stop\n")
    except BrokenPipeError:
        pass  # it has ended
    return server.end(SECONDS_OF_AN_END) == (1, SAID)


def lost(volume, way):
    """Nothing is acknowledged after this was done to the file, and the server says why it ends."""
    with volume.serve() as server, server.call() as caller:
        assert caller.post(article(1)) == "240 Article received"
        time.sleep(PAUSE)
        way(volume.path)
        assert not caller.post(article(2)).startswith("240 ")
        assert says_replaced(server) and has_ended(server)


def a_file_that_is_gone_or_changed_ends_the_server(volume):
    """Removed, replaced by a rename, cut, copied over, written into, or touched: the next post isn't acknowledged."""
    volume.make_group()
    kept = volume.path + ".kept"
    shutil.copy(volume.path, kept)
    for way in (os.remove, moved_over(kept), lambda path: os.truncate(path, 0), copied_over(kept), written_into, os.utime):
        shutil.copy(kept, volume.path)
        lost(volume, way)


def a_volume_that_is_moved_ends_the_server(volume):
    """Its file has what was acknowledged until the server looks: when the operator asks, and at the end."""
    volume.make_group()
    away = volume.path + ".away"
    for line in ("status", "stop"):
        with volume.serve() as server, server.call() as caller:
            os.rename(volume.path, away)
            assert caller.post(article(1 if line == "status" else 2)) == "240 Article received"
            server.order(line)
            assert says_replaced(server)
            assert line == "stop" or not caller.post(article(3)).startswith("240 ")
            assert has_ended(server)
        os.rename(away, volume.path)
    assert sum("<1@" in line or "<2@" in line for line in volume.dump()) == 2


def its_own_writes_end_no_server(volume):
    """Posts, expiries and a wait between them: the times of the server's own writes are its own."""
    volume.make_group()
    with volume.serve() as server, server.call() as caller:
        for number in range(1, 9):
            assert caller.post(article(number)) == "240 Article received"
            time.sleep(PAUSE / 8 * (number % 3))
        server.order("status")
        assert server.order("stop") == "stopped" and server.end() == (0, "")


TESTS = [
    metrics_are_not_written_over_a_volume,
    metrics_are_not_written_over_what_is_no_file_of_ours,
    what_stands_beside_the_metrics_is_not_written_through,
    a_pipe_beside_the_metrics_holds_up_no_start,
    a_renewal_writes_through_nothing,
    a_renewal_by_root_gives_nothing_away,
    who_may_not_give_the_owner_is_refused_before_the_copy,
    a_renewal_beside_the_volume_itself,
    a_new_volume_leaves_nothing_half,
    an_empty_file_is_replaced_whole,
    a_refusal_leaves_no_volume,
    an_empty_file_in_a_folder_of_others,
    a_file_that_is_gone_or_changed_ends_the_server,
    a_volume_that_is_moved_ends_the_server,
    its_own_writes_end_no_server,
]

if __name__ == "__main__":
    sys.exit(main(TESTS))
