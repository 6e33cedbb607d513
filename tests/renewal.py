#!/usr/bin/env python3
"""System tests of `newsd renew`. renewal.py NEWSD [NAME..]"""
import copy
import fcntl
import json
import os
import pty
import random
import re
import stat
import struct
import subprocess
import sys
import tempfile
import termios
import time

from newsd import GROUP, HOST, NO_SUPERBLOCK, SECONDS, SECONDS_OF_WORK, article, end_with_parent, message_id, octets
from playing import Skipped, main
from refusals import compile_library

REPLACING = os.path.join(os.path.dirname(os.path.abspath(__file__)), "replacing.c")
GROUPS = (GROUP, "x.b", "x.c")
# articles of the volume whose renewal is killed, and how often it is
MANY, KILLS = 400, 20
# a volume with room for them is small, and soon made and opened
SMALL = {"blocks": 2048, "inodes": 1088}
BLOCK = 4096
# the octets of the pack that an article's file takes beside its content
HEAD = 17
ERASE = "\r\x1b[K"
PROGRESS = re.compile(r"(\d+) of (\d+) changes, (\d+) changes a second")
REPORT = ("groups", "kept", "husks", "expiries", "before", "after")
# the commands whose reply has further lines, by the code that says so
LONG_REPLIES = (b"100", b"101", b"211", b"215", b"220", b"221", b"222", b"224", b"230", b"231")


def a_client_sees_no_difference(volume):
    """Octet by octet: of groups, numbers, overviews, texts and ids, also of those that are gone; and what it posts then."""
    fill(volume)
    before = view(volume)
    dumped, exported = volume.dump(), volume.export("--crlf")
    new = beside(volume, "new")
    done = renewed(volume, new)
    assert (done["groups"], done["kept"], done["husks"], done["expiries"]) == (3, 46, 20, 4), done
    assert view(new) == before
    assert (new.dump(), new.export("--crlf")) == (dumped, exported)
    assert (volume.dump(), volume.export("--crlf")) == (dumped, exported)
    # what is posted then has the numbers and ids that it would have had
    after = []
    for each in (volume, new):
        with each.serve() as server, server.call() as caller:
            for number in range(100, 120):
                assert caller.post(article(number).replace(b"Newsgroups: x.a", b"Newsgroups: x.b,x.a")) == "240 Article received"
            # the server makes the id of this one
            posted = re.sub(rb"Message-ID: .*?\r\n", b"", article("none"))
            assert caller.post(posted) == "240 Article received"
            assert server.order("expire x.a 50").isdigit()
        after.append((each.dump(), each.export("--crlf"), view(each)))
    assert after[0] == after[1]
    # to renew it again changes nothing but what has gone since
    again = beside(volume, "again")
    assert renewed(new, again)["husks"] > done["husks"]
    assert view(again) == after[0][2]


def what_is_gone_gives_its_room_back(volume):
    """Wherever it stood: in the pack, alone because it is too long for the pack, or alone because the volume has few inodes. The status says
    of how many blocks that is sure, and a renewal gives back little more."""
    few = volume.another("few", inodes=1984)
    for each, lines, alone in ((volume, 200, 0), (volume.another("long"), 500, 90), (few, 200, 90)):
        post_long(each, 100, lines)
        each.expire(90)
        before = status_of(each)
        new = beside(each, "new")
        said = json_of(each, "renew", each.path, new.path, "--json")
        after = status_of(new)
        for name, status in (("before", before), ("after", after)):
            assert said[name] == {"blocks": status["blocks"], "inodes": status["inodes"]}, (said, status)
        assert (said["groups"], said["kept"], said["husks"], said["expiries"]) == (1, 10, 90, 1), said
        # of each text what it has more than its husk, less 17 octets
        more = sum(len(article(it, body=body_of(lines))) - len(b".\r\n") - len(husk_of(it)) - HEAD for it in range(90))
        assert before["gone"] == {"articles": 90, "texts": 90, "blocks": more // BLOCK}, (before, more)
        assert after["gone"] == {"articles": 90, "texts": 0, "blocks": 0}, after
        less = before["blocks"]["used"] - after["blocks"]["used"]
        # what had inodes leaves a block that was filled in part, and one of pointers
        assert before["gone"]["blocks"] <= less <= before["gone"]["blocks"] + 2 + 2 * alone, (before, after)
        assert before["inodes"]["used"] - after["inodes"]["used"] == alone, (before, after)


def a_renewed_pack_is_as_dense_as_a_new_one(volume):
    """Of 600 articles in the pack every other group is taken out. A new volume into which the kept ones are imported has as many blocks, but
    for those of the husks."""
    for name in GROUPS[:2]:
        volume.make_group(name)
    texts = [lf_text(number).replace(b"Newsgroups: x.a", b"Newsgroups: " + GROUPS[number % 2].encode()) for number in range(600)]
    assert volume.run("import", volume.path, given=b"".join(b"#! rnews %d\n%s" % (len(it), it) for it in texts)).returncode == 0
    volume.expire(300, "x.b")
    renewed(volume, None)
    other = volume.another("other")
    for name in GROUPS[:2]:
        other.make_group(name)
    exported = volume.export()
    assert other.run("import", other.path, given=exported).returncode == 0 and other.export() == exported
    used, of_a_new_one = (status_of(each)["blocks"]["used"] for each in (volume, other))
    # 300 husks with their heads, their numbers in the group, and their lines of the overview, of at most 48 octets
    husks = sum(len(husk_of(number, "x.b")) + HEAD + 26 + 16 + 48 for number in range(1, 600, 2))
    assert used <= of_a_new_one + husks // BLOCK + 3, (used, of_a_new_one, husks)


def a_volume_grows(volume):
    """One that is full takes articles again. It may shrink, too, as far as its changes have room."""
    small = volume.another("small", blocks=1024, inodes=64)
    small.make_group()
    with small.serve() as server, server.call() as caller:
        for number in range(61):
            assert caller.post(article(number)) == "240 Article received"
        assert caller.post(article(61)) == "441 Article not accepted"
    dumped = small.dump()
    new = beside(small, "new")
    renewed(small, new, "--blocks", "2048", "--inodes", "1088")
    assert new.dump() == dumped
    status = status_of(new)
    assert (status["blocks"]["all"], status["inodes"]["all"]) == (2048, 1088), status
    with new.serve() as server, server.call() as caller:
        for number in range(61, 200):
            assert caller.post(article(number)) == "240 Article received"
    renewed(new, None, "--inodes", "256")
    assert status_of(new)["inodes"]["all"] == 256
    too_small = beside(small, "too_small")
    for words, said in (
        (["--inodes", "128"], "E6 Full: change 127: too few inodes are free"),
        (["--inodes", "4194304"], "E14 Bad: --inodes '4194304' is too many for so few blocks"),
        (["--blocks", "1023"], "E14 Bad: --blocks '1023' is no number from 1024 to 4194304"),
        (["--inodes", "100"], "E14 Bad: --inodes '100' is no multiple of 64 from 64 to 4194304"),
    ):
        refuses(new, [new.path, too_small.path, *words], said)
        assert not os.path.exists(too_small.path) and not os.path.exists(too_small.path + ".part"), words


def blocks_may_lack(volume):
    post_long(volume, 20, 3000)
    done = volume.run("renew", volume.path, beside(volume, "new").path, "--blocks", "1024", "--inodes", "64")
    found = re.fullmatch(r"newsd: E6 Full: change (\d+): too few blocks are free\n", done.stderr.decode())
    assert (done.returncode, done.stdout) == (1, b"") and found and 2 < int(found.group(1)) < 21, done
    assert os.listdir(os.path.dirname(volume.path)) == ["volume"]


def a_volume_is_renewed_in_place(volume):
    """It keeps its mode, and a symbolic link keeps naming it."""
    fill(volume)
    before, dumped = view(volume), volume.dump()
    os.chmod(volume.path, 0o640)
    node = os.stat(volume.path).st_ino
    done = renewed(volume, None)
    assert done["husks"] == 20, done
    found = os.stat(volume.path)
    assert stat.S_IMODE(found.st_mode) == 0o640 and found.st_ino != node, found
    assert os.listdir(os.path.dirname(volume.path)) == ["volume"]
    assert (view(volume), volume.dump()) == (before, dumped)
    link = beside(volume, "link")
    os.symlink(volume.path, link.path)
    renewed(link, None, "--blocks", "16384")
    assert os.path.islink(link.path) and status_of(volume)["blocks"]["all"] == 16384
    assert (view(volume), volume.dump()) == (before, dumped)
    assert sorted(os.listdir(os.path.dirname(volume.path))) == ["link", "volume"]


def what_can_not_be_renewed_is_refused(volume):
    """Nothing is made then, and what is there keeps its octets."""
    volume.make_group()
    directory = os.path.dirname(volume.path)
    new, text, link = (os.path.join(directory, name) for name in ("new", "text", "link"))
    with open(text, "w") as file:
        file.write("no volume")
    os.symlink(os.path.join(directory, "nowhere"), link)
    content = octets(volume.path)
    for words, said in (
        ([volume.path, text], "E14 Bad: NEW '%s' is there already" % text),
        ([volume.path, volume.path], "E14 Bad: NEW '%s' is there already" % volume.path),
        ([volume.path, link], "E14 Bad: NEW '%s' is there already" % link),
        ([volume.path, directory], "E14 Bad: NEW '%s' is there already" % directory),
        ([volume.path, new, "--in-place"], "E14 Bad: NEW '%s' can't be given with --in-place" % new),
        ([volume.path], "E14 Bad: OLD '%s' needs NEW or --in-place beside it" % volume.path),
        ([text, new], NO_SUPERBLOCK),
        ([text, "--in-place"], NO_SUPERBLOCK),
        ([new, new + "2"], "E1 Fault: the file isn't there"),
        ([new, "--in-place"], "E1 Fault: the file isn't there"),
        ([volume.path, directory + "/none/new"], "E1 Fault: the file isn't there"),
        ([volume.path, text + "/new"], "E1 Fault: the file can't be opened: not a directory"),
    ):
        refuses(volume, words, said)
    for words in ([], [volume.path, new, "more"], [volume.path, new, "--host", HOST]):
        done = volume.run("renew", *words)
        assert (done.returncode, done.stdout) == (2, b"") and done.stderr, done
    with volume.serve() as server:
        for words in ([volume.path, new], [volume.path, "--in-place"]):
            refuses(volume, words, "E1 Fault: the volume is in use by process %d" % server.process.pid)
    assert sorted(os.listdir(directory)) == ["link", "text", "volume"]
    with open(text) as file:
        assert file.read() == "no volume"
    assert volume.dump() == ["spool 1", "1 group x.a y"]
    assert len(octets(volume.path)) == len(content)
    # a report that can't be printed leaves the new volume
    with open("/dev/full", "w") as full:
        done = subprocess.run([volume.program, "renew", volume.path, new], stdout=full, stderr=subprocess.PIPE, timeout=SECONDS_OF_WORK)
    assert done.returncode == 1 and done.stderr, done
    assert beside(volume, "new").dump() == volume.dump()


def a_volume_that_was_just_replaced_is_refused(volume):
    """A command has opened its file, but not locked it, when a renewal in place ends. What it wrote there would be lost."""
    volume.make_group()
    new = beside(volume, "new")
    renewed(volume, new)
    content = octets(new.path)
    with tempfile.TemporaryDirectory(prefix="newsd-replacing-") as folder:
        library = compile_library(folder, REPLACING)
        if library is None:
            raise Skipped("there is no compiler for C")
        replaced = ["env", "LD_PRELOAD=" + library, "BY=" + new.path, "OVER=" + volume.path]
        words = [volume.program, "group", volume.path, "x.new", "y", "1000000000", "a group"]
        done = subprocess.run([*replaced, *words], capture_output=True, timeout=SECONDS)
    said = "newsd: E1 Fault: the volume is in use by a server or another command\n"
    assert (done.returncode, done.stdout, done.stderr.decode()) == (1, b"", said), done
    assert octets(volume.path) == content and not os.path.exists(new.path)


def a_killed_renewal_leaves_the_old_volume(volume):
    """At random moments. The new one is not there or whole; the next renewal makes anew what was begun."""
    chance = seeded()
    volume = volume.another("many", **SMALL)
    make_many(volume)
    kept = (volume.dump(), volume.export())
    start = time.monotonic()
    renewed(volume, beside(volume, "first"))
    seconds = time.monotonic() - start
    left = {"nothing": 0, "a part": 0, "all": 0}
    for number in range(KILLS):
        new = beside(volume, "new%d" % number)
        kill_after(volume, [volume.path, new.path], chance.uniform(0, seconds))
        assert (volume.dump(), volume.export()) == kept
        if os.path.exists(new.path):
            left["all"] += 1
            assert (new.dump(), new.export()) == kept
            continue
        left["a part" if os.path.exists(new.path + ".part") else "nothing"] += 1
        renewed(volume, new)
        assert (new.dump(), new.export()) == kept
        assert not os.path.exists(new.path + ".part")
    print("  of %d killed: %s" % (KILLS, ", ".join("%s %d" % it for it in left.items())), flush=True)


def a_renewal_in_place_is_killed(volume):
    """The file is the old volume or the new one, and each time all that stood there stands there."""
    chance = seeded()
    volume = volume.another("many", **SMALL)
    make_many(volume)
    kept, seen = (volume.dump(), volume.export()), view(volume)
    start = time.monotonic()
    renewed(volume, None)
    seconds = time.monotonic() - start
    replaced = 0
    for number in range(KILLS):
        node = os.stat(volume.path).st_ino
        kill_after(volume, [volume.path, "--in-place"], chance.uniform(0.1, 1.1) * seconds)
        replaced += os.stat(volume.path).st_ino != node
        assert (volume.dump(), volume.export()) == kept
    assert view(volume) == seen
    renewed(volume, None)
    assert view(volume) == seen and os.listdir(os.path.dirname(volume.path)) == ["volume"]
    print("  of %d killed %d had replaced the file" % (KILLS, replaced), flush=True)


def a_terminal_is_shown_how_far_it_is(volume):
    """A line each second at most, on standard error alone, which is erased at the end."""
    make_many(volume)
    shown, terminal = pty.openpty()
    # a line of it is not wrapped
    fcntl.ioctl(terminal, termios.TIOCSWINSZ, struct.pack("HHHH", 24, 200, 0, 0))
    words = [volume.program, "renew", volume.path, beside(volume, "new").path]
    process = subprocess.Popen(words, stdout=subprocess.PIPE, stderr=terminal, preexec_fn=end_with_parent)
    said = process.communicate(timeout=SECONDS_OF_WORK)[0].decode()
    os.write(terminal, b"end")
    seen = ""
    while not seen.endswith("end"):
        seen += os.read(shown, 65536).decode()
    os.close(terminal)
    os.close(shown)
    assert process.returncode == 0 and said.startswith("groups "), (process.returncode, said)
    lines = [line for line in seen[:-len("end")].split(ERASE) if line]
    assert seen.endswith("end") and seen[:-len("end")].endswith(ERASE), seen
    assert all(PROGRESS.fullmatch(line) for line in lines), lines


def fill(volume):
    """Articles in three groups, of which one is made late. 46 are in a group still; 20 are gone: in x.a alone 4, in x.b alone 7, in
    both 8, and one in x.c."""
    for name in GROUPS[:2]:
        volume.make_group(name)
    names = ("x.a", "x.b", "x.a,x.b", "x.b,x.a,x.none")
    with volume.serve() as server, server.call() as caller:
        post_some(caller, range(1, 41), names)
        assert server.order("expire x.a 12").isdigit()
        assert server.order("group x.c n 1000000001 late").isdigit()
        post_some(caller, range(41, 65), names)
        assert server.order("expire x.b 5").isdigit()
        for name in ("one", "two"):
            assert caller.ask("IHAVE " + message_id(name))[:3] == "335"
            caller.send(article(name).replace(b"Newsgroups: x.a", b"Newsgroups: x.c"))
            assert caller.line() == "235 Article transferred"
        assert server.order("expire x.c 1").isdigit()
        assert server.order("expire x.b 20").isdigit()


def post_long(volume, count, lines):
    """Makes the group and posts so many articles of so many lines."""
    volume.make_group()
    with volume.serve() as server, server.call() as caller:
        for number in range(count):
            assert caller.post(article(number, body=body_of(lines))) == "240 Article received"


def body_of(lines):
    return "\r\n".join("%070d" % line for line in range(lines))


def husk_of(number, names=GROUP):
    """What a renewal leaves of an article that is gone (docs/GLOSSARY.md)."""
    fields = ["Path: -", "Date: -", "From: -", "Subject: -", "Message-ID: " + message_id(number), "Newsgroups: " + names]
    return "".join(field + "\r\n" for field in [*fields, ""]).encode()


def post_some(caller, numbers, names):
    for number in numbers:
        posted = article(number, "subject %d" % number, "..x\r\n" * (number % 7) + "x" * 100 * (number % 11))
        posted = posted.replace(b"Newsgroups: x.a", b"Newsgroups: " + names[number % len(names)].encode())
        assert caller.post(posted) == "240 Article received"


def make_many(volume):
    """A volume with many articles, of which some are gone."""
    volume.make_group()
    text = b"".join(b"#! rnews %d\n%s" % (len(it), it) for it in (lf_text(number) for number in range(MANY)))
    done = volume.run("import", volume.path, given=text)
    assert done.returncode == 0, done
    volume.expire(MANY // 2)


def lf_text(number):
    return article(number, body="x" * (5 * number))[:-len(b".\r\n")].replace(b"\r\n", b"\n")


def view(volume):
    """All that a client can ask of the volume, octet by octet."""
    asked = ["LIST", "LIST ACTIVE", "LIST ACTIVE.TIMES", "LIST NEWSGROUPS", "LIST OVERVIEW.FMT", "NEWGROUPS 20000101 000000 GMT",
             "NEWNEWS * 20000101 000000 GMT", "NEWNEWS x.b 20000101 000000 GMT", "GROUP x.none"]
    for name in GROUPS:
        asked += ["GROUP " + name, "STAT", "LISTGROUP " + name, "LISTGROUP %s 3-9" % name, "OVER 1-", "OVER 7", "NEXT", "NEXT", "LAST"]
        for number in range(0, 45):
            asked += ["%s %d" % (word, number) for word in ("STAT", "ARTICLE", "HEAD", "BODY")]
        asked += ["NEXT", "LAST", "ARTICLE"]
    for name in [*range(0, 70), "one", "two"]:
        asked += ["%s %s" % (word, message_id(name)) for word in ("STAT", "ARTICLE", "OVER")]
    with volume.serve() as server, server.call() as caller:
        seen = [(line, reply_to(caller, line)) for line in asked]
        for name in [*range(1, 65), "one", "two"]:
            # it was here, so it is not wanted
            reply = caller.ask("IHAVE " + message_id(name))
            seen.append((name, reply))
            if reply.startswith("335"):
                caller.send(b".\r\n")
                seen.append((name, caller.line()))
            else:
                # nor is it filed again
                seen.append((name, caller.post(article(name))))
    return seen


def reply_to(caller, line):
    """The reply to a command, with its further lines."""
    caller.send(line.encode() + b"\r\n")
    first = caller.file.readline()
    lines = [first]
    if first[:3] in LONG_REPLIES and not (first[:3] == b"211" and line.startswith("GROUP")):
        while lines[-1] != b".\r\n":
            lines.append(caller.file.readline())
    return b"".join(lines)


def beside(volume, name):
    """A volume of the same directory, which needn't be there."""
    other = copy.copy(volume)
    other.path = os.path.join(os.path.dirname(volume.path), name)
    return other


def renewed(volume, new, *words):
    """What a renewal says that it did."""
    done = volume.run("renew", volume.path, new.path if new else "--in-place", *words)
    assert (done.returncode, done.stderr) == (0, b""), done
    lines = dict(line.split(" ", 1) for line in done.stdout.decode().splitlines())
    assert tuple(lines) == REPORT, done
    status = status_of(new or volume)
    assert lines["after"] == "%d of %d blocks, %d of %d inodes" % tuple(
        status[what][which] for what in ("blocks", "inodes") for which in ("used", "all")), (lines, status)
    return {name: int(lines[name]) for name in REPORT[:4]}


def refuses(volume, words, said):
    done = volume.run("renew", *words)
    assert (done.returncode, done.stdout, done.stderr.decode()) == (1, b"", "newsd: %s\n" % said), (words, done)


def status_of(volume):
    return json_of(volume, "status", volume.path, "--json")


def json_of(volume, *words):
    """The object that a command prints on one line."""
    done = volume.run(*words)
    assert (done.returncode, done.stderr) == (0, b"") and done.stdout.count(b"\n") == 1, done
    return json.loads(done.stdout)


def kill_after(volume, words, seconds):
    """Kills a renewal that runs for this long, or lets it end."""
    process = subprocess.Popen([volume.program, "renew", *words], stdout=subprocess.DEVNULL, stderr=subprocess.DEVNULL,
                               preexec_fn=end_with_parent)
    time.sleep(seconds)
    process.kill()
    process.wait(SECONDS)


def seeded():
    seed = random.randrange(1 << 32)
    print("  seed", seed, flush=True)
    return random.Random(seed)


TESTS = [
    a_client_sees_no_difference,
    what_is_gone_gives_its_room_back,
    a_renewed_pack_is_as_dense_as_a_new_one,
    a_volume_grows,
    blocks_may_lack,
    a_volume_is_renewed_in_place,
    what_can_not_be_renewed_is_refused,
    a_volume_that_was_just_replaced_is_refused,
    a_killed_renewal_leaves_the_old_volume,
    a_renewal_in_place_is_killed,
    a_terminal_is_shown_how_far_it_is,
]


if __name__ == "__main__":
    sys.exit(main(TESTS))
