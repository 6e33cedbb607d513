#!/usr/bin/env python3
"""System tests of the pack, in which short articles stand as they are filed. packs.py NEWSD [NAME..]"""
import json
import os
import random
import sys

from findings import DAMAGED, TOO_LATE, Image, assert_rows, grouped, u32, u64
from newsd import GROUP, HOST, article, long_article, message_id
from playing import main

BLOCK = 4096
END_OF_BLOCK = b".\r\n"
# the fewest inodes of a volume in whose pack articles stand, and the most octets of their texts
INODES, PACKED_TEXT = 2048, 32_768
# the octets of a file's head in the pack: a length, the name, a length
HEAD = 17
GROUP_FILES = 3
# articles in a volume of the sizes that `format` has by default, and the octets of each
MANY, SHORT = 40_000, 1024
# seconds for a command where others keep the processors busy
PATIENCE = 120
# in the record of an article (docs/FORMATS.md)
MOMENT_AT, SIZE_AT, COUNT_AT, TEXT_AT = 8, 16, 20, 25


def short_articles_take_their_octets(volume):
    """And no inode: 1,000 of 1,024 octets take some 1.3 KB each, with their numbers and the lines of the overview."""
    small = volume.another("small", blocks=4096, inodes=INODES)
    small.make_group()
    before = used(small)
    with small.serve() as server, server.call() as caller:
        for first in range(0, 1000, 50):
            caller.send(b"".join(b"POST\r\n" + long_article(first + it, SHORT) for it in range(50)))
            for _ in range(50):
                assert (caller.line(), caller.line()) == ("340 Send article", "240 Article received")
    after = used(small)
    each = (after["blocks"] - before["blocks"]) * BLOCK / 1000
    assert 1150 < each < 1350, each
    assert (before["inodes"], after["inodes"]) == (GROUP_FILES, GROUP_FILES + 1), (before, after)


def a_text_of_32768_octets_is_the_longest(volume):
    """One more octet, and it has an inode of its own, whoever files it. So has each text in a volume of fewer than 2,048 inodes."""
    few, least = (volume.another(str(inodes), blocks=2048, inodes=inodes) for inodes in (INODES - 64, INODES))
    for each, short in ((few, 1), (least, 0), (volume, 0)):
        each.make_group()
        inodes = GROUP_FILES if short else GROUP_FILES + 1
        for number, (size, more) in enumerate(((1000, short), (PACKED_TEXT, short), (PACKED_TEXT + 1, 1), (262_144, 1), (PACKED_TEXT, short))):
            with each.serve() as server, server.call() as caller:
                assert caller.post(long_article("post.%d" % number, size)) == "240 Article received"
                assert caller.ask("IHAVE <ihave.%d@a.example>" % number) == "335 Send article"
                caller.send(long_article("ihave.%d" % number, size))
                assert caller.line() == "235 Article transferred"
            text = long_article("import.%d" % number, size)[:-len(END_OF_BLOCK)]
            assert each.run("import", each.path, given=b"#! rnews %d\n%s" % (len(text), text)).returncode == 0
            inodes += 3 * more
            assert used(each)["inodes"] == inodes, (each.path, size, inodes)


def a_default_volume_takes_40000_articles(volume):
    """Of 1,024 octets, with the sizes that `format` takes by itself."""
    os.unlink(volume.path)
    volume.run("format", volume.path, "--host", HOST, "--new").check_returncode()
    volume.make_group()
    body = "x" * (SHORT - len(article(MANY, body="")) + len(END_OF_BLOCK))
    texts = (article(number, body=body)[:-len(END_OF_BLOCK)] for number in range(MANY, 2 * MANY))
    done = volume.run("import", volume.path, given=b"".join(b"#! rnews %d\n%s" % (len(it), it) for it in texts), seconds=PATIENCE)
    assert (done.returncode, done.stdout.decode().split("\n")[0]) == (0, "filed %d" % MANY), done
    status = status_of(volume)
    assert status["inodes"] == {"all": INODES, "used": GROUP_FILES + 1, "free": INODES - GROUP_FILES - 1}, status
    assert status["groups"][0]["high"] == MANY and status["blocks"]["free"] > 320 + 256, status
    with volume.serve() as server, server.call() as caller:
        assert len(article(MANY, body=body)) - len(END_OF_BLOCK) == SHORT
        for number in (1, MANY // 2, MANY):
            own_id = message_id(MANY + number - 1)
            assert caller.ask("STAT " + own_id) == "223 0 " + own_id
        assert caller.ask("GROUP " + GROUP) == "211 %d 1 %d %s" % (MANY, MANY, GROUP)


def damage_in_the_middle_of_a_pack_is_told(volume):
    """As it is of a file of its own: which article, and what of it. The volume is refused whole either way."""
    packed, few = (volume.another(str(inodes), blocks=1024, inodes=inodes) for inodes in (INODES, INODES - 64))
    name = "a.0000000021"
    for each, words in ((packed, "file %s in the pack" % name), (few, "file %s" % name)):
        put_articles(each, 40)
        image = Image(each.path)
        at, size = record_of(image, name)
        where = at(0)
        assert image.octets[where:][:8] == u64(21), image.octets[where:][:8]
        assert_rows(each, image, DAMAGED, [
            ([(at(0), b"\x16")], words + " has serial 22"),
            ([(at(MOMENT_AT), u64(TOO_LATE))], words + " has the moment %d, which isn't before the year 10000" % TOO_LATE),
            ([(at(SIZE_AT), u32(2**32 - 1))], words + " has %s octets, where its header asks for 4,294,967,320" % grouped(size)),
            ([(at(SIZE_AT), u32(7))], words + " has %s octets, where its header asks for 32" % grouped(size)),
            ([(at(COUNT_AT), b"\xff")], words + " has %s octets, in which its header doesn't end" % grouped(size)),
            ([(at(TEXT_AT), b"\0")], None),
        ], accepted=41)


def what_stands_before_and_behind_is_not_mistaken(volume):
    """The head of a file in the middle of the pack has another length or name. What is told is the octet of the pack where it begins."""
    packed = volume.another("packed", blocks=1024, inodes=INODES)
    put_articles(packed, 40)
    image = Image(packed.path)
    at, size = record_of(image, "a.0000000021")
    start = next(start for name, start, _ in image.packed() if name == b"a.0000000021")
    begin, behind = grouped(start - HEAD), grouped(start + size + 1)
    assert_rows(packed, image, DAMAGED, [
        ([(at(-HEAD), b"\x0d")], "the file at octet %s of file p has a name of 13 octets, where one in the pack has 12" % begin),
        ([(at(-HEAD + 1), b"g")], "the file at octet %s of file p has a name of no form for a file in the pack" % begin),
        ([(at(-4), u32(2**32 - 1))], "file p ends in its file at octet %s" % begin),
        # what is read as the next head begins one octet late
        ([(at(-4), u32(size + 1))], "the file at octet %s of file p has a name of 97 octets, where one in the pack has 12" % behind),
        ([(at(-5), b"2")], "file a.0000000022 in the pack has serial 21"),
    ], accepted=41)


def an_octet_of_a_body_is_that_articles_alone(volume):
    """One that breaks no rule isn't noticed, in the pack as in a file of its own. All else is what it was."""
    packed = volume.another("packed", blocks=1024, inodes=INODES)
    put_articles(packed, 40)
    image, exported = Image(packed.path), packed.export("--crlf")
    for serial in random.sample(range(2, 42), 3):
        at, size = record_of(image, "a.%010d" % serial)
        # the last line has its end behind it
        image.write([(at(size - 3), b"Z")])
        texts = exported.split(b"#! rnews ")
        head, end = texts[serial - 1][:-3], texts[serial - 1][-3:]
        assert end[1:] == b"\r\n", end
        texts[serial - 1] = head + b"Z\r\n"
        assert packed.export("--crlf") == b"#! rnews ".join(texts), serial
    image.write()
    assert packed.export("--crlf") == exported


def put_articles(volume, count):
    """Makes the group and imports so many articles of different sizes. All segments are closed."""
    volume.make_group()
    texts = [article(number, body="x" * (37 * number % 900)) for number in range(count)]
    texts = [it[:-len(END_OF_BLOCK)] for it in texts]
    assert volume.run("import", volume.path, given=b"".join(b"#! rnews %d\n%s" % (len(it), it) for it in texts)).returncode == 0
    volume.settle()


def record_of(image, name):
    """Where an octet of an article's file stands in the volume, as a function of its place in the file, and the file's size. The file stands
    in the pack, or has an inode of its own and one block."""
    own = image.named(name.encode())
    if own is not None:
        return (lambda place: image.content(own) + place), image.size(own)
    blocks = image.owned(image.named(b"p"))[0]
    start, size = next((start, size) for found, start, size in image.packed() if found == name.encode())
    # nothing that is changed here goes on in the next block
    return (lambda place: image.block(blocks[(start + place) // BLOCK]) + (start + place) % BLOCK), size


def used(volume):
    status = status_of(volume)
    return {name: status[name]["used"] for name in ("blocks", "inodes")}


def status_of(volume):
    done = volume.run("status", volume.path, "--json", seconds=PATIENCE)
    assert (done.returncode, done.stderr) == (0, b""), done
    return json.loads(done.stdout)


TESTS = [
    short_articles_take_their_octets,
    a_text_of_32768_octets_is_the_longest,
    a_default_volume_takes_40000_articles,
    damage_in_the_middle_of_a_pack_is_told,
    what_stands_before_and_behind_is_not_mistaken,
    an_octet_of_a_body_is_that_articles_alone,
]


if __name__ == "__main__":
    sys.exit(main(TESTS))
