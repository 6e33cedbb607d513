#!/usr/bin/env python3
"""System tests of `newsd groups`, which makes the groups of INN's lists, and of the moment `now`. lists.py NEWSD [NAME..]"""
import subprocess
import sys
import tempfile
import time

from ages import Dated
from newsd import SECONDS, end_with_parent
from playing import main

MOMENT = 1700000000
# how often a list is killed
KILLS = 6
LIST = b"""# active
x.a 0000000123 0000000001 y
x.b 0 1 n

x.mod 0 1 m
x.other 0 1 =x.a
x.junk 0 1 j
x.%s 0 1 y
x..a 0 1 y
x.c 0 1
x.c 0 1 y extra
x.c  0 1 y
x.c one 1 y
x.blank 0 1 y
x.long 0 1 y
x.a 0 1 n
x.none 0 1 y
# newsgroups
x.a\t\tThe first one
x.b\tAnother one
x.a\tNot the first one
x.blank\t \t
x.long\t%s
x.elsewhere\tNot in active
""" % (39 * b"d", 201 * b"e")
SAID = ["line 2: made 1 x.a", "line 3: made 2 x.b",
        "line 5: refused: its flag is m, and there is no moderation",
        "line 6: refused: its flag is neither y nor n", "line 7: refused: its flag is neither y nor n",
        "line 8: refused: its name has more than 40 octets", "line 9: refused: its name is no name of a group",
        *("line %d: refused: no line of active or newsgroups" % line for line in (10, 11, 12, 13)),
        "line 14: refused: its description has more than 200 octets, or others than ASCII, or is blank",
        "line 15: refused: its description has more than 200 octets, or others than ASCII, or is blank",
        "line 16: here x.a", "line 17: made 3 x.none", "made 3", "here 1", "refused 11"]


def shown(server, line):
    """What a reader is shown by a command, without its first line."""
    with server.call() as caller:
        caller.send(line.encode() + b"\r\n")
        assert caller.line().startswith("2"), line
        return list(iter(caller.line, "."))


def the_groups_of_both_files_are_made(volume):
    done = volume.run("groups", volume.path, "--moment", str(MOMENT), given=LIST)
    assert (done.returncode, done.stderr, done.stdout.decode().splitlines()) == (1, b"", SAID), done
    with volume.serve() as server:
        assert shown(server, "LIST ACTIVE") == ["x.a 0 1 y", "x.b 0 1 n", "x.none 0 1 y"]
        assert shown(server, "LIST NEWSGROUPS") == ["x.a\tThe first one", "x.b\tAnother one", "x.none\tNo description."]
        assert [line.split()[:2] for line in shown(server, "LIST ACTIVE.TIMES")] == [[name, str(MOMENT)] for name in ("x.a", "x.b", "x.none")]
    # once more: what was made is there
    again = volume.run("groups", volume.path, given=b"x.a 0 1 y\nx.b 0 1 y")
    assert (again.returncode, again.stdout) == (0, b"line 1: here x.a\nline 2: here x.b\nmade 0\nhere 2\nrefused 0\n"), again


def a_group_is_made_now(volume):
    """By the command, and by a list. Where the clock gives no time it is refused, and nothing changes."""
    before = int(time.time())
    assert volume.run("group", volume.path, "x.a", "y", "now", "test").stdout == b"1\n"
    assert volume.run("groups", volume.path, given=b"x.b 0 1 y\n").stdout == b"line 1: made 2 x.b\nmade 1\nhere 0\nrefused 0\n"
    after = int(time.time())
    with volume.serve() as server:
        for line in shown(server, "LIST ACTIVE.TIMES"):
            assert before <= int(line.split()[1]) <= after, line
    with tempfile.TemporaryDirectory(prefix="newsd-dating-") as folder:
        dated, dump = Dated(volume, folder), volume.dump()
        why = b"needs a clock that gives a time from 1970 to 9999\n"
        for words, name in ((["group", volume.path, "x.c", "y", "now", "test"], b"MOMENT"), (["groups", volume.path], b"--moment")):
            done = dated.run(253402300800, *words, given=b"x.c 0 1 y\n")
            assert (done.returncode, done.stdout, done.stderr) == (1, b"", b"newsd: E14 Bad: %s 'now' %s" % (name, why)), done
        assert volume.dump() == dump


def a_list_is_bounded(volume):
    """It has 16,384 lines at most, with the empty one behind the last LF. A volume takes 4,096 groups."""
    done = volume.run("groups", volume.path, given=16384 * b"\n")
    assert (done.returncode, done.stderr) == (1, b"newsd: E14 Bad: PATH '%s' takes a list of at most 16384 lines\n" % volume.path.encode()), done
    assert volume.dump() == ["spool 0"]
    done = volume.run("groups", volume.path, given=b"".join(b"x.%d 0 1 y\n" % number for number in range(2000)))
    said = done.stdout.decode().splitlines()
    made = sum(": made " in line for line in said)
    assert said[-3:] == ["made %d" % made, "here 0", "refused %d" % (2000 - made)] and 0 < made < 2000, said[-3:]
    assert said[made] == "line %d: refused x.%d: E6 Full" % (made + 1, made) and done.returncode == 1, said[made]
    assert len(volume.dump()) == made + 1


def a_killed_list_leaves_its_first_groups(volume):
    """And the same list makes the others."""
    names = ["x.%d" % number for number in range(1000)]
    given = "".join("%s 0 1 y\n" % name for name in names).encode()
    for kill in range(KILLS):
        at = volume.another("killed%d" % kill, blocks=8192, inodes=4096)
        with subprocess.Popen([at.program, "groups", at.path], stdin=subprocess.PIPE, stdout=subprocess.PIPE, preexec_fn=end_with_parent) as process:
            process.stdin.write(given)
            process.stdin.close()
            time.sleep(0.02 * kill)
            process.kill()
            said = process.stdout.read().decode().split("\n")[:-1]
            process.wait(SECONDS)
        there = [line.split()[2] for line in at.dump()[1:]]
        assert there == names[:len(there)] and sum(": made " in line for line in said) <= len(there), (kill, len(there), said[:3])
        done = at.run("groups", at.path, given=given)
        assert done.returncode == 0 and [line.split()[2] for line in at.dump()[1:]] == names, (kill, done.stdout[-100:])


TESTS = [
    the_groups_of_both_files_are_made,
    a_group_is_made_now,
    a_list_is_bounded,
    a_killed_list_leaves_its_first_groups,
]


if __name__ == "__main__":
    sys.exit(main(TESTS))
