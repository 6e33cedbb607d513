#!/usr/bin/env python3
"""System tests of large volumes. large.py NEWSD [NAME..]"""
import json
import multiprocessing
import os
import struct
import sys

from newsd import GROUP, HOST, Caller, article, message_id
from playing import main

BLOCK = 4096
# the journal's segments, and the superblock before them
BEFORE_HOMES = 1 + 8 * 514
BITS = 8 * BLOCK
MOST_BLOCKS = MOST_INODES = 4_194_304
# a site's articles, and who posts them side by side
ARTICLES, POSTERS = 200_000, 16
# the address space that the largest volume is served in while it is nearly empty, and the memory that this may take: its blocks are
# few, and what is reserved for the others isn't memory yet
LITTLE_MEMORY = 2 << 30
MOST_WHILE_EMPTY = 60_000_000
# one group's articles with long headers, whose overview is larger than all files of a volume of 65,536 blocks
LONG_ONES, LONG_HEADER = 37_000, 7_600
SMALL_FILE = 65_536 * BLOCK


def state(volume, **given):
    done = volume.run("status", volume.path, "--json", **given)
    assert done.returncode == 0, done
    return json.loads(done.stdout)


def tables_of(blocks):
    """The number of blocks of the bitmap (docs/FORMATS.md)."""
    return 2 + max(0, blocks - 65_536 + BITS - 1) // BITS


def sizes_at_the_borders_of_the_bitmap(volume):
    for blocks, inodes in ((65_536, 64), (65_537, 4096), (98_304, 32_768), (98_305, 32_832)):
        at = volume.another("of-%d" % blocks, blocks=blocks, inodes=inodes)
        before = tables_of(blocks) + 2 * inodes // 64
        assert state(at)["blocks"] == {"all": blocks, "used": before, "free": blocks - before}, (blocks, state(at))
        at.make_group()
        with at.serve() as server, server.call() as caller:
            assert caller.post(article(1)).startswith("240"), blocks
            server.kill()
        assert len(at.dump()) == 3, blocks
        # the group has a file, its numbers and its overview, and the article a file
        assert state(at)["blocks"]["used"] == before + 4, (blocks, state(at))
        os.unlink(at.path)


def each_block_of_the_bitmap_is_checked(volume):
    """A bit too many in each of six blocks of the bitmap."""
    blocks = 163_841
    at = volume.another("damaged", blocks=blocks, inodes=4096)
    assert tables_of(blocks) == 6
    at.make_group()
    # an opening to write carries the blocks of open segments home
    at.settle()
    for table in range(6):
        number = BITS * table + 20_000
        place = BLOCK * (BEFORE_HOMES + table) + 20_000 // 8
        with open(at.path, "r+b") as file:
            file.seek(place)
            was = file.read(1)
            file.seek(place)
            file.write(bytes([was[0] | 1]))
        done = at.run("status", at.path)
        said = "which no file owns" if number < blocks else "where there are 163,841 blocks"
        assert (done.returncode, done.stdout) == (1, b""), (table, done)
        assert done.stderr.decode() == "newsd: E5 Damaged: the bitmap marks block %d, %s\n" % (number, said), (table, done)
        with open(at.path, "r+b") as file:
            file.seek(place)
            file.write(was)
        assert state(at)["changes"] == 1


def make_the_largest(path):
    """The largest volume as an empty file with its superblock and its bitmap: none of its other blocks takes room on the disk."""
    label = struct.pack("<IB", MOST_INODES, len(HOST)) + HOST.encode()
    superblock = struct.pack("<8sIII", b"XNNTPFS1", 1, MOST_BLOCKS, 8) + label.ljust(128, b"\0") + b"\2"
    first_data = tables_of(MOST_BLOCKS) + 2 * MOST_INODES // 64
    with open(path, "wb") as file:
        file.write(superblock)
        file.seek(BLOCK * BEFORE_HOMES)
        file.write(b"\xff" * (first_data // 8))
        file.truncate(BLOCK * (BEFORE_HOMES + MOST_BLOCKS))
    assert first_data == 131_200 and first_data % 8 == 0
    return first_data


def the_largest_volume_is_served(volume):
    before = make_the_largest(volume.path)
    of = state(volume, most_memory=LITTLE_MEMORY)
    assert of["blocks"] == {"all": MOST_BLOCKS, "used": before, "free": MOST_BLOCKS - before}, of
    assert of["inodes"] == {"all": MOST_INODES, "used": 0, "free": MOST_INODES}, of
    with volume.serve() as server, server.call() as caller:
        assert server.order("group %s y 1000000000 test" % GROUP) == "1"
        for number in range(1, 6):
            assert caller.post(article(number)).startswith("240"), number
        print("  with 5 articles the server has %d MB" % (server.memory() // 1_000_000), flush=True)
        assert server.memory() < MOST_WHILE_EMPTY, server.memory()
        server.kill()
    done = volume.run("dump", volume.path)
    assert done.stdout.startswith(b"spool 6\n"), done


def numbers_beyond_the_ranges_are_refused(volume):
    words = ["format", volume.path, "--host", HOST]
    for more, said in (
        (["--blocks", "4194305"], "--blocks '4194305' is no number from 1024 to 4194304"),
        (["--inodes", "4194368"], "--inodes '4194368' is no multiple of 64 from 64 to 4194304"),
        (["--blocks", "65537", "--format", "1"], "--blocks '65537' is too many for format 1"),
        (["--blocks", "65536", "--inodes", "32832", "--format", "1"], "--inodes '32832' is too many for format 1"),
    ):
        done = volume.run(*words, *more)
        assert (done.returncode, done.stdout, done.stderr.decode()) == (1, b"", "newsd: E14 Bad: %s\n" % said), done
    assert volume.dump() == ["spool 0"]


def long_headed(number):
    """An article in the form of a batch, with a long header that stands in its overview's line."""
    head, body = article(number).decode().replace("\r\n", "\n").split("\n\n", 1)
    more = "\n".join(" %s" % ("x" * 900) for _ in range(LONG_HEADER // 900))
    text = ("%s\nReferences: <a@b>\n%s\n\n%s" % (head, more, body[:-2])).encode()
    return b"#! rnews %d\n%s" % (len(text), text)


def an_overview_larger_than_every_file_of_before(volume):
    at = volume.another("overview", blocks=200_000, inodes=65_536)
    at.make_group()
    half = LONG_ONES // 2
    for first, last in ((1, half), (half + 1, LONG_ONES)):
        done = at.run("import", at.path, given=b"".join(map(long_headed, range(first, last + 1))))
        assert done.stdout.startswith(b"filed %d\n" % (last - first + 1)), done
    overview = state(at)["groups"][0]["overview"]["used"]
    print("  an overview of %d octets" % overview, flush=True)
    assert overview > SMALL_FILE
    with at.serve() as server, server.call() as caller:
        number = LONG_ONES + 1
        assert caller.post(article(number)).startswith("240")
        server.kill()
    with at.serve() as server, server.call() as caller:
        assert caller.ask("GROUP %s" % GROUP) == "211 %d 1 %d %s" % (number, number, GROUP)
        assert caller.ask("OVER %d" % number).startswith("224")
        assert caller.line().split("\t")[4] == message_id(number)


def post_all(port, numbers):
    """Posts these articles one after the other. The next command goes out with an article, which saves a turn."""
    with Caller(port) as caller:
        caller.send(b"POST\r\n")
        for number in numbers:
            asked = caller.line()
            caller.send(article(number) + b"POST\r\n")
            reply = caller.line()
            assert asked.startswith("340") and reply.startswith("240"), (number, asked, reply)


def a_site_of_200_000_articles(volume):
    at = volume.another("site", blocks=262_144, inodes=262_144)
    at.make_group()
    with at.serve() as server:
        shares = [range(first, ARTICLES + 1, POSTERS) for first in range(1, POSTERS + 1)]
        with multiprocessing.get_context("fork").Pool(POSTERS) as pool:
            pool.starmap(post_all, [(server.port, share) for share in shares])
        server.kill()
    with at.serve() as server, server.call() as caller:
        assert caller.ask("GROUP %s" % GROUP) == "211 %d 1 %d %s" % (ARTICLES, ARTICLES, GROUP)
        for number in (1, ARTICLES // 2, ARTICLES):
            assert caller.ask("STAT %s" % message_id(number)).startswith("223"), number
        assert caller.ask("OVER 1-%d" % ARTICLES).startswith("224")
        ids = {caller.line().split("\t")[4] for _ in range(ARTICLES)}
        assert caller.line() == "."
        assert ids == {message_id(number) for number in range(1, ARTICLES + 1)}


TESTS = [
    sizes_at_the_borders_of_the_bitmap,
    each_block_of_the_bitmap_is_checked,
    numbers_beyond_the_ranges_are_refused,
    the_largest_volume_is_served,
    an_overview_larger_than_every_file_of_before,
    a_site_of_200_000_articles,
]

if __name__ == "__main__":
    sys.exit(main(TESTS))
