#!/usr/bin/env python3
"""System tests of the formats of a volume: a group whose overview has a double-indirect block, and volumes of formats 1 and 2 that are
opened. formats.py NEWSD [NAME..]"""
import json
import os
import random
import shutil
import signal
import struct
import subprocess
import sys
import time

from findings import Image, u32, u64
from newsd import GROUP, HOST, SECONDS, article, end_with_parent, free_port, message_id, octets
from playing import Skipped, main
from renewal import beside, fill, renewed, status_of, view
from syncs import count_calls, have_failed, trace

BLOCK = 4096
SEGMENT_BLOCKS = 514
RECORD = 64
# where the two gates of the formats stand, the epoch and the zeros after it, and what the gates hold in a new volume of each format
GATES_AT, EPOCH_AT, REST_AT = 148, 150, 151
IS_FORMAT_1, IS_FORMAT_2, IS_FORMAT_3 = b"\0\0", b"\2\0", b"\2\3"
MAGIC = b"XNNTPFS1"
SYNCS = ("fsync", "fdatasync")
# other values of the gates, and the formats that they are
ODD_GATES = ((b"\1\0", 1), (b"\x4d\x4d", 1), (b"\xff\xff", 1), (b"\3\2", 1), (b"\2\1", 2), (b"\2\x4d", 2), (b"\2\xff", 2))
# in an inode
SIZE_AT, INDIRECT_AT, DOUBLE_AT = 4, 52, 56
# the octets of the largest file of format 1
MOST_OF_FORMAT_1 = 4235264
# where a volume is made one of an earlier format, it has so few inodes that no article stands in the pack
LARGE, FEW = {"blocks": 16384, "inodes": 1984}, {"blocks": 2048, "inodes": 1984}
# so long a line of the overview that few articles fill the largest overview of format 1
REFERENCES = " ".join("<%s@a.example>" % ("r" * 200) for _ in range(36))
IMPORTED = 640
# posts that are answered before a server is killed, those under way when it is, and how often
ANSWERED, UNDER_WAY, KILLS = 20, 40, 2
# how often an opening is killed
KILLED_OPENINGS = 12


def a_group_goes_on_past_the_largest_file_of_format_1(volume):
    """Its overview gets more than 1,034 blocks by an import. Servers that more is posted to are killed. Each line is read back."""
    large = volume.another("large", **LARGE)
    large.make_group()
    texts = [text_of(number) for number in range(1, IMPORTED + 1)]
    done = large.run("import", large.path, given=batch(texts))
    assert (done.returncode, done.stdout.decode().split("\n")[0], done.stderr) == (0, "filed %d" % IMPORTED, b""), done
    numbers = articles_there(large)
    assert len(numbers) == IMPORTED
    for _ in range(KILLS):
        told = kill_beside_posts(large, len(numbers))
        there = articles_there(large)
        assert numbers == there[:len(numbers)] and len(numbers) + told <= len(there), (len(numbers), told, len(there))
        numbers = there
        assert_reads_back(large, numbers)
    # as one of format 1 it has a file that is too large: it is refused, and stays as it is
    put_gates(large, IS_FORMAT_1)
    before = octets(large.path)
    for word in ("dump", "status"):
        done = large.run(word, large.path)
        assert (done.returncode, done.stdout) == (1, b"") and done.stderr.startswith(b"newsd: E5 Damaged"), (word, done)
    assert octets(large.path) == before
    # as one of format 2 it is sound, and is upgraded when it is opened
    put_gates(large, IS_FORMAT_2)
    assert articles_there(large) == numbers and gates_of(large) == IS_FORMAT_3


def articles_there(volume):
    """The numbers of the articles that are there. They are the first ones, in order, and their lines are the group's overview."""
    volume.settle()
    lines = volume.dump()
    numbers = list(range(1, len(lines) - 1))
    changes = ["%d article %s %s" % (1 + number, message_id(number), GROUP) for number in numbers]
    assert lines == ["spool %d" % (1 + len(numbers)), "1 group %s y" % GROUP, *changes], lines[:3]
    assert_has_double(volume.path, sum(map(len, lines_of(numbers))))
    return numbers


def assert_has_double(path, size):
    """The overview of the group has this many octets, and the blocks that name its blocks are as many as it needs."""
    image = octets(path)
    _, segments, inodes = struct.unpack_from("<III", image, 12)
    assert not Image(path).open
    home = (1 + SEGMENT_BLOCKS * segments) * BLOCK
    slots = home + (2 + inodes // 64) * BLOCK
    name = b"o." + GROUP.encode()
    number = next(it for it in range(inodes) if image[slots + RECORD * it:].startswith(bytes([len(name)]) + name))
    inode = image[home + 2 * BLOCK + RECORD * number:][:RECORD]
    found, = struct.unpack_from("<Q", inode, SIZE_AT)
    indirect, double, spare = struct.unpack_from("<III", inode, INDIRECT_AT)
    assert found == size > MOST_OF_FORMAT_1, (found, size)
    assert indirect and double and not spare, (indirect, double, spare)
    named = struct.unpack_from("<1024I", image, home + BLOCK * double)
    tables = -(-(-(-size // BLOCK) - 10) // 1024)
    assert tables > 1 and all(named[:tables - 1]) and not any(named[tables - 1:]), (tables, named[:tables + 1])


def kill_beside_posts(volume, there):
    """Posts to a server that is killed then. Answers how many posts were acknowledged."""
    with volume.serve() as server, server.call() as caller:
        for number in range(there + 1, there + 1 + ANSWERED):
            assert caller.post(posted(number)) == "240 Article received", number
        under_way = range(there + 1 + ANSWERED, there + 1 + ANSWERED + UNDER_WAY)
        caller.send(b"".join(b"POST\r\n" + posted(number) for number in under_way))
        told = ANSWERED
        for _ in range(random.randrange(UNDER_WAY)):
            said = caller.line(), caller.line()
            assert said == ("340 Send article", "240 Article received"), (told, said)
            told += 1
        server.kill()
        return told


def assert_reads_back(volume, numbers):
    """The whole overview, some lines on both sides of the largest file of format 1, and the last article."""
    lines = lines_of(numbers)
    size, past = 0, 0
    while size <= MOST_OF_FORMAT_1:
        size += len(lines[past])
        past += 1
    with volume.serve() as server, server.call() as caller:
        assert caller.ask("GROUP " + GROUP) == "211 %d 1 %d %s" % (len(numbers), len(numbers), GROUP)
        for first, last in ((1, len(lines)), (past - 2, past + 2), (past, past), (len(lines), len(lines))):
            assert caller.ask("OVER %d-%d" % (first, last)).startswith("224 "), (first, last)
            assert list(iter(caller.line, ".")) == lines[first - 1:last], (first, last)
        assert caller.ask("ARTICLE %d" % len(numbers)).startswith("220 ")
        text = "".join(line + "\r\n" for line in iter(caller.line, "."))
        assert text.encode() == text_of(len(numbers))


def posted(number):
    return article(number).replace(b"\r\n\r\n", b"\r\nReferences: %s\r\n\r\n" % REFERENCES.encode(), 1)


def text_of(number):
    """An article as it is stored."""
    return posted(number)[:-len(b".\r\n")]


def lines_of(numbers):
    """The lines of the overview of these articles, by docs/FORMATS.md and RFC 3977, section 8.3."""
    fields = ("one", "a@example.org", "Sun, 09 Sep 2001 01:46:40 +0000")
    return ["\t".join([str(it), *fields, message_id(it), REFERENCES, str(len(text_of(it))), "1"]) for it in numbers]


def batch(texts):
    """A batch of rnews, with lines that end in CRLF."""
    return b"".join(b"#! rnews %d\n%s" % (len(text), text) for text in texts)


def a_new_volume_has_the_format_that_is_asked(volume):
    """Without a word it is format 3. The files of new volumes differ in their gates alone, and once they were opened each has format 3."""
    names = ("default", "first", "second", "third")
    paths = [os.path.join(os.path.dirname(volume.path), name) for name in names]
    asked = ((IS_FORMAT_3, []), (IS_FORMAT_1, ["--format", "1"]), (IS_FORMAT_2, ["--format", "2"]), (IS_FORMAT_3, ["--format", "3"]))
    for path, (_, words) in zip(paths, asked):
        volume.run("format", path, "--host", HOST, "--blocks", "1024", "--inodes", "64", *words).check_returncode()
    whole = octets(paths[0])
    for path, (gates, _) in zip(paths, asked):
        before = octets(path)
        assert before == with_gates(whole, gates), path
        done = volume.run("dump", path)
        assert (done.returncode, done.stdout) == (0, b"spool 0\n"), done
        assert octets(path) == before
        volume.run("import", path).check_returncode()
        assert octets(path) == with_gates(whole, upgraded(gates)), path
    first, before = paths[1], octets(paths[1])
    for word in ("0", "4", "12", "two"):
        done = volume.run("format", first, "--host", HOST, "--format", word)
        assert (done.returncode, done.stdout) == (1, b""), (word, done)
        assert done.stderr.decode().startswith("newsd: E14 Bad: --format '%s' is " % word), (word, done)
    assert octets(first) == before


def a_format_that_is_cut_short_leaves_no_other_volume(volume):
    """After each call it is the volume that stood there, no volume, or from the last write on the new one. So it is in a copy of the file
    after each sync."""
    old, changes = one_with_an_article(volume)
    calls, copies = [], []

    def at_result(_, name):
        with open(old.path, "rb") as file:
            calls.append((name, file.read(len(MAGIC)) == MAGIC))
        if name in SYNCS:
            copies.append("%s.%d" % (old.path, len(copies)))
            shutil.copyfile(old.path, copies[-1])

    if trace([old.program, "format", old.path, "--host", HOST, "--blocks", "1024", "--inodes", "64"], at_result, is_silent=True) != 0:
        raise Skipped("the program can't be traced")
    names, there = [name for name, _ in calls], [is_there for _, is_there in calls]
    gone, again = there.index(False), len(there) - 2
    assert there == [True] * gone + [False] * (again - gone) + [True] * 2, (gone, again, there.count(False))
    assert [names[it] in SYNCS for it in (gone - 1, gone, gone + 1, again - 1, again, again + 1)] == [True, False, True] * 2
    found = []
    for copy in copies:
        done = old.run("dump", copy)
        found.append(done.stdout.decode().splitlines() if done.returncode == 0 else done.stderr.split(b": ")[1].decode())
        os.unlink(copy)
    stood = names[:gone].count(SYNCS[0]) + names[:gone].count(SYNCS[1])
    assert found == [changes] * stood + ["E3 NotAVolume"] * (len(copies) - stood - 1) + [["spool 0"]], found


def a_volume_of_an_earlier_format_is_upgraded_when_it_is_opened(volume):
    """By each command that may write to one, before it does anything else. It has the changes that it had, and takes further ones. The
    commands that only read it leave it as it is. So it is with one whose gate an upgrade before has torn."""
    old = format_1(volume, "old")
    assert status_format(old) == 1 and gates_of(old) == IS_FORMAT_1
    # a server has upgraded it before it listens
    with old.serve() as server, server.call() as caller:
        assert gates_of(old) == upgraded(IS_FORMAT_1)
        assert server.order("group %s y 1000000000 test" % GROUP) == "1"
        assert caller.post(article(1)) == "240 Article received"
        assert server.order("stop") == "stopped"
        assert server.end() == (0, "")
    changes = ["spool 2", "1 group %s y" % GROUP, "2 article <1@a.example> %s" % GROUP]
    old.settle()
    assert old.dump() == changes
    whole = octets(old.path)
    assert whole == with_gates(whole, upgraded(IS_FORMAT_1)) and status_format(old) == 3
    for gates, number in ((IS_FORMAT_1, 1), (IS_FORMAT_2, 2), *ODD_GATES):
        put_gates(old, gates)
        first = octets(old.path)
        exported = old.export()
        assert (status_format(old), old.dump(), exported.startswith(b"#! rnews ")) == (number, changes, True), gates
        assert octets(old.path) == first, gates
        old.settle()
        assert octets(old.path) == with_gates(whole, upgraded(gates)) and old.export() == exported, gates
    for number, words in enumerate((["group", old.path, "x.b", "y", "1000000000", "test"], ["expire", old.path, GROUP, "1"]), 3):
        put_gates(old, IS_FORMAT_2)
        done = old.run(*words)
        assert (done.returncode, done.stdout.decode()) == (0, "%d\n" % number), done
        assert gates_of(old) == IS_FORMAT_3, words
    assert old.dump() == ["spool 4", *changes[1:], "3 group x.b y", "4 expire %s 1" % GROUP]


def a_server_upgrades_each_earlier_format_and_keeps_all(volume):
    """What a client asks for of groups, articles and overviews is the same, octet by octet, in a volume whose articles and expiries have
    inodes of their own, as earlier programs made it. The next expiry makes the pack, or in a volume of many inodes the next short article.
    A renewal puts there what would stand there from the first."""
    for each, is_large, formats in ((volume, True, [IS_FORMAT_2]), (volume.another("few", **FEW), False, [IS_FORMAT_1, IS_FORMAT_2])):
        fill(each)
        each.settle()
        kept, seen = (each.dump(), each.export()), view(each)
        each.settle()
        image, used = without_pack(each)
        for gates in formats:
            write(each.path, with_gates(image, gates))
            assert (each.dump(), each.export()) == kept and status_of(each)["inodes"]["used"] == used, gates
            assert view(each) == seen, gates
            assert gates_of(each) == upgraded(gates) and (each.dump(), each.export()) == kept, gates
            for number in (21, 22):
                each.expire(number, "x.b")
                assert status_of(each)["inodes"]["used"] == used + 1, (gates, number)
            with each.serve() as server, server.call() as caller:
                assert caller.post(article("more")) == "240 Article received"
            there = status_of(each)
            assert there["inodes"]["used"] == used + (1 if is_large else 2), gates
            done = renewed(each, None)
            assert done["husks"] == there["gone"]["articles"] and gates_of(each) == IS_FORMAT_3, gates
            # the files of three groups, the pack, and what is kept of few inodes
            assert status_of(each)["inodes"]["used"] == 3 * 3 + 1 + (0 if is_large else done["kept"]), (gates, done)


def a_volume_of_an_earlier_format_is_renewed(volume):
    """The new one has format 3, and its pack has what had inodes before. The old one is opened to write, so it has format 3, too."""
    for each, is_large in ((volume, True), (volume.another("few", **FEW), False)):
        fill(each)
        each.settle()
        kept, (image, _) = (each.dump(), each.export()), without_pack(each)
        for gates in (IS_FORMAT_1, IS_FORMAT_2):
            write(each.path, with_gates(image, gates))
            new = beside(each, "new")
            done = renewed(each, new)
            assert (gates_of(new), gates_of(each)) == (IS_FORMAT_3, upgraded(gates)), gates
            assert (new.dump(), new.export()) == (each.dump(), each.export()) == kept, gates
            used = [status_of(one)["inodes"]["used"] for one in (each, new)]
            assert used[0] - used[1] == done["husks"] + done["expiries"] - 1 + (done["kept"] if is_large else 0), (used, done)
            os.unlink(new.path)


def without_pack(volume):
    """The octets of the volume, in which each file of the pack has an inode of its own, and how many inodes are used then."""
    image = Image(volume.path)
    pack = image.named(b"p")
    freed = [it for blocks in image.owned(pack) for it in blocks]
    whole = image.file(pack)
    inodes = [pack, *(it for it in range(image.inodes) if image.octets[image.inode(it)] == 0)]
    bits = int.from_bytes(image.octets[image.block(0):image.block(2)], "little") & ~sum(1 << it for it in freed)
    unused, changes = (it for it in range(image.blocks) if not bits >> it & 1), []
    taken = []
    for inode, (name, at, size) in zip(inodes, image.packed()):
        blocks = [next(unused) for _ in range(-(-size // BLOCK))]
        assert len(blocks) <= 10, (name, size)
        taken += blocks
        changes += [
            (image.inode(inode), (u32(1) + u64(size) + b"".join(map(u32, blocks))).ljust(RECORD, b"\0")),
            (image.slot(inode), (bytes([len(name)]) + name).ljust(RECORD, b"\0")),
            *((image.block(block), whole[at:at + size][BLOCK * it:][:BLOCK].ljust(BLOCK, b"\0")) for it, block in enumerate(blocks)),
        ]
    bits |= sum(1 << it for it in taken)
    used = image.inodes - (len(inodes) - 1) - 1 + sum(1 for _ in image.packed())
    return image.changed([*changes, (image.block(0), bits.to_bytes(2 * BLOCK, "little"))]), used


def an_upgrade_is_one_write_and_one_sync(volume):
    old, changes = one_with_an_article(volume)
    again = count_calls([old.program, "import", old.path])
    if again is None:
        raise Skipped("the program can't be traced")
    for gates in (IS_FORMAT_1, IS_FORMAT_2):
        put_gates(old, gates)
        calls = count_calls([old.program, "import", old.path])
        assert (calls["pwrite64"], calls["fdatasync"]) == (again["pwrite64"] + 1, again["fdatasync"] + 1), (gates, again, calls)
        assert count_calls([old.program, "import", old.path]) == again
        assert gates_of(old) == upgraded(gates) and old.dump() == changes


def a_sync_that_fails_refuses_the_opening(volume):
    """The first sync of an opening fails, or that of the upgrade. The next opening does what is left to do."""
    old, changes = one_with_an_article(volume)
    for failing, gates in ((1, IS_FORMAT_2), (2, IS_FORMAT_3)):
        put_gates(old, IS_FORMAT_2)
        status = status_with_failing_sync([old.program, "import", old.path], failing)
        if status is None:
            raise Skipped("the program can't be traced")
        # the file keeps what was written, whatever the program was told of the sync
        assert (status, gates_of(old)) == (1, gates), failing
        old.settle()
        assert old.dump() == changes and gates_of(old) == IS_FORMAT_3


def status_with_failing_sync(words, failing):
    """The status of a run of which this sync, counted from 1, fails as far as the program knows."""
    seen = [0]

    def at_result(pid, name):
        seen[0] += name in SYNCS
        if seen[0] == failing and name in SYNCS:
            have_failed(pid)

    return trace(words, at_result, is_silent=True)


def an_opening_that_is_killed_keeps_the_changes(volume):
    """It is killed at random moments, in the format that it had or in format 3 each time."""
    old, changes = one_with_an_article(volume)
    start = time.monotonic()
    old.settle()
    seconds = time.monotonic() - start
    found = []
    for _ in range(KILLED_OPENINGS):
        put_gates(old, IS_FORMAT_2)
        words = [old.program, "import", old.path]
        process = subprocess.Popen(words, stdin=subprocess.DEVNULL, stdout=subprocess.DEVNULL, stderr=subprocess.DEVNULL, preexec_fn=end_with_parent)
        try:
            process.wait(random.uniform(0, seconds))
        except subprocess.TimeoutExpired:
            process.kill()
        assert process.wait(SECONDS) in (0, -signal.SIGKILL)
        found.append(gates_of(old)[1])
        old.settle()
        assert old.dump() == changes and gates_of(old) == IS_FORMAT_3
    assert set(found) <= {0, 3}, found
    print("  the gate after each kill", found, flush=True)


def an_upgrade_that_is_killed_after_a_call_keeps_the_changes(volume):
    """After each write and each sync of an opening that carries an open segment home and upgrades the volume. It has the format that it
    had until the last write, and format 3 from then on."""
    old = volume.another("open", blocks=1024, inodes=64)
    old.make_group()
    old.run("import", old.path, given=batch([text_of(1)])).check_returncode()
    old.make_group("x.b")
    changes, whole = old.dump(), octets(old.path)
    assert Image(old.path).open
    words = [old.program, "import", old.path]
    for gates in (IS_FORMAT_1, IS_FORMAT_2):
        begun = with_gates(whole, gates)
        write(old.path, begun)
        counts = count_calls(words)
        if counts is None:
            raise Skipped("the program can't be traced")
        calls = sum(counts.values())
        found = []
        for number in range(calls):
            write(old.path, begun)
            assert killed_after(words, number) == -signal.SIGKILL, number
            found.append(gates_of(old))
            assert old.dump() == changes, (gates, number)
            old.settle()
            assert old.dump() == changes and gates_of(old) == upgraded(gates), (gates, number)
        assert found == [gates] * (calls - 2) + [upgraded(gates)] * 2, found


def an_opening_that_closes_all_segments_is_killed_after_a_call(volume):
    """After each write and each sync of an opening that carries eight segments home, in each epoch. The changes are there, whatever a crash
    leaves in the place of the epoch once that is written."""
    eight = volume.another("eight", blocks=1024, inodes=64)
    image = with_a_checkpoint(eight)
    changes, words = eight.dump(), [eight.program, "import", eight.path]
    torn = {block for it in range(image.segments) for block in image.listed(it)}
    for epoch in (1, 2):
        opened = [(EPOCH_AT, bytes([epoch])), *((image.gate(it), bytes([epoch])) for it in range(image.segments))]
        # what stands at home was torn on the way there
        begun = image.changed(opened + [(image.block(it), b"w" * BLOCK) for it in torn])
        write(eight.path, begun)
        counts = count_calls(words)
        if counts is None:
            raise Skipped("the program can't be traced")
        calls, found = sum(counts.values()), []
        for number in range(calls):
            write(eight.path, begun)
            assert killed_after(words, number) == -signal.SIGKILL, number
            found.append(Image(eight.path).epoch)
            left = octets(eight.path)
            for octet in (None, 0, 1, 2, 77) if number == calls - 2 else (None,):
                write(eight.path, left if octet is None else left[:EPOCH_AT] + bytes([octet]) + left[REST_AT:])
                assert eight.dump() == changes, (epoch, number, octet)
                eight.settle()
                assert not Image(eight.path).open and eight.dump() == changes, (epoch, number, octet)
        assert found == [epoch] * (calls - 2) + [3 - epoch] * 2, found


def with_a_checkpoint(volume):
    """The volume after eight batches of a server, whose images are home. All segments were closed at once."""
    volume.make_group()
    with volume.serve() as server, server.call() as caller:
        for number in range(8):
            assert caller.post(article(number)) == "240 Article received"
        end = time.monotonic() + SECONDS
        while Image(volume.path).epoch == 1:
            assert time.monotonic() < end, "there is no checkpoint"
            time.sleep(0.01)
        server.kill()
    image = Image(volume.path)
    assert not image.open and all(image.octets[image.gate(it)] == 1 for it in range(image.segments))
    return image


def killed_after(words, number):
    """The status of a run that is killed after this write or sync, counted from 0."""
    seen = [0]

    def at_result(pid, _):
        if seen[0] == number:
            os.kill(pid, signal.SIGKILL)
        seen[0] += 1

    return trace(words, at_result, is_silent=True)


def what_is_refused_keeps_its_format(volume):
    """A volume that is no spool, or is in use, is not upgraded."""
    old, changes = one_with_an_article(volume)
    put_gates(old, IS_FORMAT_1)
    whole = octets(old.path)
    _, segments = struct.unpack_from("<II", whole, 12)
    home = (1 + SEGMENT_BLOCKS * segments) * BLOCK
    for place, refusal in ((0, "E3 NotAVolume"), (REST_AT, "E3 NotAVolume"), (20, "E3 NotAVolume"), (home, "E5 Damaged")):
        damaged = whole[:place] + bytes([whole[place] ^ 0xff]) + whole[place + 1:]
        write(old.path, damaged)
        for words in (["dump", old.path], ["import", old.path], ["serve", old.path, "--port", str(free_port())]):
            done = old.run(*words)
            assert (done.returncode, done.stdout) == (1, b""), (place, words, done)
            assert done.stderr.decode().startswith("newsd: " + refusal), (place, words, done)
            assert octets(old.path) == damaged, (place, words)
    write(old.path, whole)
    assert old.dump() == changes and octets(old.path) == whole
    old.settle()
    assert old.dump() == changes and gates_of(old) == upgraded(IS_FORMAT_1)


def one_with_an_article(volume):
    """A volume with an article, none of whose segments is open, and its changes."""
    old = volume.another("old", blocks=1024, inodes=64)
    old.make_group()
    old.run("import", old.path, given=batch([text_of(1)])).check_returncode()
    old.settle()
    changes = old.dump()
    assert changes == ["spool 2", "1 group %s y" % GROUP, "2 article %s %s" % (message_id(1), GROUP)], changes
    return old, changes


def format_1(volume, name):
    """A new volume of format 1."""
    old = volume.another(name, blocks=1024, inodes=64)
    old.run("format", old.path, "--host", HOST, "--blocks", "1024", "--inodes", "64", "--format", "1").check_returncode()
    return old


def status_format(volume):
    done = volume.run("status", volume.path, "--json")
    assert (done.returncode, done.stderr) == (0, b""), done
    return json.loads(done.stdout)["format"]


def gates_of(volume):
    """The octets that are the gates of the formats."""
    with open(volume.path, "rb") as file:
        file.seek(GATES_AT)
        return file.read(EPOCH_AT - GATES_AT)


def put_gates(volume, gates):
    with open(volume.path, "r+b") as file:
        file.seek(GATES_AT)
        file.write(gates)


def upgraded(gates):
    """What an opening makes of them: the gate of format 3 is open, and the other stays."""
    return gates[:1] + IS_FORMAT_3[1:]


def with_gates(image, gates):
    return image[:GATES_AT] + gates + image[EPOCH_AT:]


def write(path, content):
    with open(path, "wb") as file:
        file.write(content)


TESTS = [
    a_group_goes_on_past_the_largest_file_of_format_1,
    a_new_volume_has_the_format_that_is_asked,
    a_format_that_is_cut_short_leaves_no_other_volume,
    a_volume_of_an_earlier_format_is_upgraded_when_it_is_opened,
    a_server_upgrades_each_earlier_format_and_keeps_all,
    a_volume_of_an_earlier_format_is_renewed,
    an_upgrade_is_one_write_and_one_sync,
    a_sync_that_fails_refuses_the_opening,
    an_opening_that_is_killed_keeps_the_changes,
    an_upgrade_that_is_killed_after_a_call_keeps_the_changes,
    an_opening_that_closes_all_segments_is_killed_after_a_call,
    what_is_refused_keeps_its_format,
]


if __name__ == "__main__":
    sys.exit(main(TESTS))
