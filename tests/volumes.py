#!/usr/bin/env python3
"""System tests of the commands over a volume in a file, and of its largest sizes. volumes.py NEWSD [NAME..]"""
import fcntl
import os
import struct
import subprocess
import sys

from newsd import GROUP, HOST, NO_SUPERBLOCK, SECONDS, article, octets, settled_octets, simulate
from playing import Skipped, main
from syncs import count_calls

MOMENT = 1000000000
# a user without rights
NOBODY = 65534
NOT_UTF_8 = b"newsd: E14 Bad: one of the words, or of the names of files, isn't UTF-8\n"
IRREGULAR = "E1 Fault: it is no regular file"
NO_DESCRIPTION = "is no line of at most 200 octets of ASCII, or is blank"


def what_can_not_be_served_is_refused(volume):
    directory = volume.path.rsplit("/", 1)[0]
    with open(directory + "/text", "w") as text:
        text.write("no volume")
    pipe = directory + "/pipe"
    os.mkfifo(pipe)
    for words, status, said in (
        (["serve", directory, "--port", "1"], 1, "E1 Fault: the file can't be opened: is a directory"),
        (["dump", directory + "/none"], 1, "E1 Fault: the file isn't there"),
        (["dump", directory + "/text"], 1, NO_SUPERBLOCK),
        (["group", volume.path, "x..a", "y", "1000000000", "test"], 1, "E14 Bad: NAME 'x..a' is no name of a group"),
        (["group", volume.path, "x." + 39 * "a", "y", "1000000000", "test"], 1, "E14 Bad: NAME 'x.%s' has more than 40 octets" % (39 * "a")),
        (["group", volume.path, "x.a", "m", "1000000000", "test"], 1, "E14 Bad: STATUS 'm' is neither y nor n"),
        *((["group", volume.path, "x.a", "y", moment, "test"], 1,
           "E14 Bad: MOMENT '%s' is neither now nor a number of seconds before the year 10000" % moment) for moment in ("", "Now", "253402300800")),
        (["group", volume.path, "x.a y", "y", "1000000000", "test"], 1, "E14 Bad: NAME 'x.a y' is no name of a group"),
        *((["group", volume.path, "x.a", "y", "1000000000", text], 1, "E14 Bad: DESCRIPTION '%s' %s" % (text, NO_DESCRIPTION))
          for text in ("", " ", 200 * " ", 201 * "a")),
        (["expire", volume.path, "x..a", "1"], 1, "E14 Bad: NAME 'x..a' is no name of a group"),
        (["expire", volume.path, "x.a", "one"], 1, "E14 Bad: N 'one' is no number of an article"),
        (["expire", volume.path, "x.a", "10000000000000000"], 1, "E14 Bad: N '10000000000000000' is no number of an article"),
        (["expire", volume.path, "x.a", "9999999999999999"], 1, "E12 NotFound: the group isn't here"),
        (["expire", volume.path, "x.a", "4294967297"], 1, "E12 NotFound: the group isn't here"),
        (["expire", volume.path, "x.a", "1"], 1, "E12 NotFound: the group isn't here"),
        (["expire", volume.path, "x.a", "0"], 1, "E12 NotFound: the group isn't here"),
        *((["expire", volume.path, *words], 1, "E14 Bad: PATH '%s' needs NAME and N or --older-than beside it" % volume.path)
          for words in ([], ["x.a"], ["--dry-run"])),
        (["expire"], 2, None),
        (["expire", volume.path, "x.a", "1", "--older-than", "10"], 1, "E14 Bad: N '1' can't be given with --older-than"),
        (["expire", volume.path, "x.a", "1", "--dry-run"], 1, "E14 Bad: N '1' can't be given with --dry-run"),
        (["expire", volume.path, "x.[a]", "--older-than", "10"], 1, "E14 Bad: WILDMAT 'x.[a]' is no wildmat"),
        *((["expire", volume.path, "--older-than", days], 1, "E14 Bad: --older-than '%s' is no number of days from 1 to 36500" % days)
          for days in ("0", "36501", "1.5", "ten", "", "18446744073709551617")),
        (["expire", directory + "/none", "--older-than", "10"], 1, "E1 Fault: the file isn't there"),
        (["expire", directory + "/text", "--older-than", "10", "--dry-run"], 1, NO_SUPERBLOCK),
        (["format", volume.path, "--host", "a..b"], 1, "E14 Bad: --host 'a..b' is no name of a server"),
        (["format", volume.path, "--host", HOST, "--inodes", "96"], 1, "E14 Bad: --inodes '96' is no multiple of 64 from 64 to 4194304"),
        (["serve", volume.path, "--port", "0"], 2, None),
        (["serve", volume.path, "--port", "65536"], 2, None),
        (["serve", volume.path], 2, None),
        (["serve", volume.path, "--listen", "localhost:1"], 1, "E14 Bad: --listen 'localhost:1' is no ADDRESS:PORT"),
        (["serve", volume.path, "--port", "1", "--allow", "::/129"], 1, "E14 Bad: --allow '::/129' is no ADDRESS or ADDRESS/LENGTH"),
        (["dump"], 2, None),
        (["status", directory + "/none"], 1, "E1 Fault: the file isn't there"),
        (["status", directory + "/none", "--json"], 1, "E1 Fault: the file isn't there"),
        (["status", directory + "/text"], 1, NO_SUPERBLOCK),
        (["status"], 2, None),
        (["export", directory + "/none"], 1, "E1 Fault: the file isn't there"),
        (["export", directory + "/text", "x.a"], 1, NO_SUPERBLOCK),
        (["export"], 2, None),
        *(([*words, path], 1, IRREGULAR)
          for words in (["dump"], ["status"], ["export"], ["import"], ["serve", "--port", "1"], ["format", "--host", HOST])
          for path in ("/dev/zero", pipe)),
    ):
        done = volume.run(*words)
        assert done.returncode == status and done.stdout == b"", (words, done)
        assert said is None or done.stderr.decode() in ("newsd: %s\n" % said, "newsd: %s: it is a directory\n" % said), (words, done)
    for words in (["--help"], ["help", "serve"], ["serve", "--help"]):
        done = volume.run(*words)
        assert done.returncode == 0 and done.stdout and not done.stderr, (words, done)
    assert volume.make_group() == 1
    again = volume.run("group", volume.path, GROUP, "y", "1000000000", "test")
    assert (again.returncode, again.stderr) == (1, b"newsd: E11 Exists: the group is here already\n")
    assert volume.dump() == ["spool 1", "1 group %s y" % GROUP]


def a_damaged_volume_is_not_opened(volume):
    volume.make_group()
    with volume.serve() as server, server.call() as caller:
        assert caller.post(article(1)) == "240 Article received"
    volume.settle()
    good = octets(volume.path)
    blocks, segments, files = struct.unpack_from("<III", good, 12)
    home = (1 + 514 * segments) * 4096
    inodes = home + 2 * 4096
    names = inodes + 64 * files
    assert len(good) == home + 4096 * blocks and good[inodes] == 1 and good[names] == 5
    for place, changed, said in (
        (0, b"Y", "E3 NotAVolume"),
        (8, b"\0", "E3 NotAVolume"),
        (16, b"\2", "E3 NotAVolume"),
        (20, b"\1", "E3 NotAVolume"),
        (home, b"\0", "E5 Damaged"),
        (inodes + 3 * 64 + 12, good[inodes + 12:inodes + 16], "E5 Damaged"),
        (inodes + 4, b"\1", "E5 Damaged"),
        (names + 64, good[names:names + 64], "E5 Damaged"),
    ):
        write(volume.path, good[:place] + changed + good[place + len(changed):])
        for word in ("dump", "status"):
            refused = volume.run(word, volume.path)
            assert (refused.returncode, refused.stdout) == (1, b""), (word, place)
            # tests/findings.py has what follows
            assert refused.stderr.decode().startswith("newsd: %s: " % said), (word, place, refused)
    write(volume.path, good[:-4096])
    assert volume.run("dump", volume.path).stderr.startswith(b"newsd: E3 NotAVolume: the file has ")
    write(volume.path, good)
    assert volume.dump() == ["spool 2", "1 group x.a y", "2 article <1@a.example> x.a"]


def a_commit_syncs_the_device(volume):
    """An opening syncs once, and where a segment is open twice more, as it carries that home. In a new volume none is. Adding a
    group then syncs at the seal and at the gate of its batch. What only reads a volume writes nothing. The next opening to write carries
    that home, and the one after it writes the two gates of the formats, the epoch and the eight gates of segments back, and nothing else."""
    counted = count_calls([volume.program, "group", volume.path, GROUP, "y", "1000000000", "test"])
    if counted is None:
        raise Skipped("the program can't be traced")
    assert counted["fdatasync"] == 3, counted
    for word in ("dump", "status", "export"):
        read = count_calls([volume.program, word, volume.path])
        assert read["fdatasync"] == read["pwrite64"] == 0, (word, read)
    opened = count_calls([volume.program, "import", volume.path])
    assert opened["fdatasync"] == 3 and opened["pwrite64"] > 0, opened
    again = count_calls([volume.program, "import", volume.path])
    assert again["fdatasync"] == 1 and again["pwrite64"] == 11, again


def what_only_reads_needs_no_right_to_write(volume):
    """Octets and format stay, also where a segment is open. Several may read a volume at a time; nobody may who can't read it."""
    old = volume.another("old", blocks=1024, inodes=64)
    volume.run("format", old.path, "--host", HOST, "--blocks", "1024", "--inodes", "64", "--format", "1").check_returncode()
    open_one = volume.another("open", blocks=1024, inodes=64)
    open_one.make_group()
    with open_one.serve() as server, server.call() as caller:
        assert caller.post(article(1)) == "240 Article received"
        server.kill()
    if os.getuid() == 0:
        os.chmod(os.path.dirname(os.path.dirname(old.path)), 0o755)
    for at, spool in ((old, b"spool 0\n"), (open_one, b"spool 2\n1 group x.a y\n2 article <1@a.example> x.a\n")):
        whole = octets(at.path)
        os.chmod(at.path, 0o444)
        with open(at.path, "rb") as reader:
            fcntl.flock(reader, fcntl.LOCK_SH)
            for words in (["dump", at.path], ["status", at.path], ["status", at.path, "--json"], ["export", at.path]):
                done = at.run(*words, user=NOBODY if os.getuid() == 0 else None)
                assert (done.returncode, done.stderr) == (0, b""), (words, done)
                assert words[0] != "dump" or done.stdout == spool, done
                assert octets(at.path) == whole, words
        os.chmod(at.path, 0)
        if os.getuid() == 0:
            done = at.run("dump", at.path, user=NOBODY)
            assert done.stderr == b"newsd: E1 Fault: the file can't be opened: permission denied\n", done
        os.chmod(at.path, 0o600)


def words_are_shown_in_their_printed_form(volume):
    """Also those that are no words of the program, and a path; one that isn't UTF-8 is refused."""
    odd = "a\x1b[31mb"
    for words, status, said in (
        (["--" + odd], 2, b"'--a\\x1b[31mb'"),
        (["dump", volume.path, odd], 2, b"a\\x1b[31mb"),
        ([odd], 2, b"a\\x1b[31mb"),
        (["group", volume.path, odd, "y", "1", "test"], 1, b"E14 Bad: NAME 'a\\x1b[31mb' is no name of a group"),
    ):
        done = volume.run(*words)
        assert (done.returncode, done.stdout) == (status, b"") and said in done.stderr and b"\x1b" not in done.stderr, (words, done)
    for words in ([b"dump", b"/\xff"], [b"\xff"]):
        done = subprocess.run([volume.program.encode(), *words], capture_output=True, timeout=SECONDS)
        assert (done.returncode, done.stdout, done.stderr) == (1, b"", NOT_UTF_8), (words, done)


def the_largest_volume_is_made_in_little_memory(volume):
    """65,536 blocks of 4,096 octets: none of them is held in memory to make them."""
    words = ["format", volume.path, "--host", HOST, "--blocks", "65536", "--inodes", "32768"]
    limits = (it for it in range(18, 50, 2) if volume.run(*words, most_memory=it << 20).returncode == 0)
    megabytes = next(limits, None)
    print("  the largest format is made within %s MiB of addresses" % megabytes, flush=True)
    assert megabytes
    assert volume.dump() == ["spool 0"]


def a_server_has_4096_groups_at_most(volume):
    making = "group %%s y %d test" % MOMENT
    lines = []
    for number in range(1, 4097):
        lines.append(making % ("g.%d" % number))
        if number % 20 == 0:
            lines += ["commit", "settle"]
    lines += ["commit", "settle", making % "x.a", making % "g.1", "crash old", making % "x.a"]
    said = simulate(volume.program, lines, 32768, 16384)
    refused = [line for line in said if not line.startswith("durable")]
    assert "durable 4096" in said and refused == ["E6 Full", "E11 Exists", "opened 4096", "E6 Full"], refused


def a_volume_is_not_made_by_a_slip(volume):
    """With --new, where anything is. What is refused keeps each octet, and so does a volume that a server has."""
    volume.make_group()
    format_words = ["format", volume.path, "--host", HOST, "--blocks", "1024", "--inodes", "64"]
    with volume.serve() as server:
        with server.call() as caller:
            assert caller.post(article(1)) == "240 Article received"
        before = settled_octets(volume.path)
        held = "newsd: E1 Fault: the volume is in use by process %d\n" % server.process.pid
        for words in (format_words, [*format_words, "--new"]):
            done = volume.run(*words)
            assert (done.returncode, done.stdout, done.stderr.decode()) == (1, b"", held), done
            assert octets(volume.path) == before, words
    refused = "newsd: E14 Bad: PATH '%s' is a file that isn't empty\n"
    other = volume.path + "-other"
    write(other, b"Dear reader\n")
    for path in (volume.path, other):
        kept = octets(path)
        done = volume.run("format", path, "--new", "--host", HOST)
        assert (done.returncode, done.stdout, done.stderr.decode()) == (1, b"", refused % path), done
        assert octets(path) == kept, path
    assert volume.dump() == ["spool 2", "1 group x.a y", "2 article <1@a.example> x.a"]
    # an empty file is as good as none
    write(other, b"")
    for path in (other, volume.path + "-none"):
        done = volume.run("format", path, "--new", *format_words[2:])
        assert (done.returncode, done.stdout, done.stderr) == (0, b"", b""), done
        assert volume.run("dump", path).stdout == b"spool 0\n"


def what_is_replaced_is_told(volume):
    """A volume, one that is damaged, and another file. Standard error that is closed changes nothing."""
    volume.make_group()
    words = ["format", volume.path, "--host", HOST, "--blocks", "1024", "--inodes", "64"]
    done = volume.run(*words)
    assert (done.returncode, done.stdout, done.stderr) == (0, b"", b"newsd: replaced a volume of 1 change\n"), done
    size = os.path.getsize(volume.path)
    with open(volume.path, "r+b") as file:
        file.write(b"Y")
    done = volume.run(*words)
    assert (done.returncode, done.stdout, done.stderr) == (0, b"", b"newsd: replaced a file of %d octets\n" % size), done
    done = volume.run(*words)
    assert (done.returncode, done.stdout, done.stderr) == (0, b"", b"newsd: replaced a volume of 0 changes\n"), done
    with open("/dev/full", "wb") as full:
        assert subprocess.run([volume.program, *words], stderr=full, timeout=SECONDS).returncode == 0
    assert volume.dump() == ["spool 0"]


def write(path, content):
    with open(path, "wb") as file:
        file.write(content)


TESTS = [
    what_can_not_be_served_is_refused,
    a_damaged_volume_is_not_opened,
    a_commit_syncs_the_device,
    what_only_reads_needs_no_right_to_write,
    words_are_shown_in_their_printed_form,
    a_volume_is_not_made_by_a_slip,
    what_is_replaced_is_told,
    the_largest_volume_is_made_in_little_memory,
    a_server_has_4096_groups_at_most,
]


if __name__ == "__main__":
    sys.exit(main(TESTS))
