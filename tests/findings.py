#!/usr/bin/env python3
"""System tests of what standard error says of a volume whose opening is refused. Each row of a table damages one thing.
findings.py NEWSD [NAME..]"""
import os
import struct
import subprocess
import sys
import tempfile

from newsd import GROUP, SECONDS, article, end_with_parent, free_port, long_article, octets
from playing import Skipped, main
from refusals import compile_library, ends_as

BLOCK = 4096
SEGMENT_BLOCKS = 514
RECORD = 64
# in an inode
SIZE_AT, POINTERS_AT, INDIRECT_AT, DOUBLE_AT, SPARE_AT = 4, 12, 52, 56, 60
# the two gates of the formats in the superblock, the epoch, and the first of the zeros after it
GATES_AT, EPOCH_AT, REST_AT = 148, 150, 151
# the largest files of format 1 and of the later ones
MOST_OCTETS_1, MOST_OCTETS_2 = 4235264, 4294963200
# in a descriptor
COUNT_AT, ZEROS_AT, NUMBERS_AT = 16, 20, 24
# the inodes of the files, the last of which is free
GROUP_FILE, NUMBERS, OVERVIEW, ARTICLE, LONG, PACK, FREE = range(7)
# in the pack, of its one file: the name, the size of the content, and the content
PACKED_NAME, PACKED_SIZE, PACKED = 1, 13, 17
LONG_OCTETS = 50000
TOO_LATE = 253402300800
NOT_A_VOLUME, DAMAGED = "E3 NotAVolume", "E5 Damaged"
# a program that has the lock of a file again and again
HOLDING = """
import fcntl, sys
with open(sys.argv[1]) as file:
    while True:
        fcntl.flock(file, fcntl.LOCK_EX)
        fcntl.flock(file, fcntl.LOCK_UN)
"""


def u32(number):
    return struct.pack("<I", number)


def u64(number):
    return struct.pack("<Q", number)


class Image:
    """The octets of a volume, and where its parts stand in them (docs/FORMATS.md)."""

    def __init__(self, path):
        self.path, self.octets = path, octets(path)
        self.blocks, self.segments, self.inodes = struct.unpack_from("<III", self.octets, 12)
        self.epoch = 2 if self.octets[EPOCH_AT] == 2 else 1
        self.open = [it for it in range(self.segments) if self.octets[self.gate(it)] == self.epoch]

    def gate(self, segment):
        return (1 + SEGMENT_BLOCKS * segment) * BLOCK

    def descriptor(self, segment):
        return self.gate(segment) + BLOCK

    def image(self, segment, block):
        """Where the image of a block stands that this segment has."""
        return self.descriptor(segment) + BLOCK * (1 + self.listed(segment).index(block))

    def listed(self, segment):
        """The blocks of the batch that this segment has."""
        at = self.descriptor(segment)
        count, = struct.unpack_from("<I", self.octets, at + COUNT_AT)
        return struct.unpack_from("<%dI" % count, self.octets, at + NUMBERS_AT)

    def block(self, number):
        return (1 + SEGMENT_BLOCKS * self.segments + number) * BLOCK

    def inode(self, number):
        return self.block(2) + RECORD * number

    def slot(self, number):
        return self.block(2 + self.inodes // 64) + RECORD * number

    def size(self, number):
        return struct.unpack_from("<Q", self.octets, self.inode(number) + SIZE_AT)[0]

    def pointer(self, number, index=0):
        return struct.unpack_from("<I", self.octets, self.inode(number) + POINTERS_AT + 4 * index)[0]

    def content(self, number):
        return self.block(self.pointer(number))

    def owned(self, number):
        """The blocks of a file's content, in order, and those that have the numbers of these."""
        count = -(-self.size(number) // BLOCK)
        *direct, single, double = struct.unpack_from("<12I", self.octets, self.inode(number) + POINTERS_AT)
        tables = [single, *(self.pointers(double) if double else ())]
        further = [it for table in tables if table for it in self.pointers(table)]
        return (direct + further)[:count], [it for it in (double, *tables) if it]

    def pointers(self, block):
        """The numbers that stand in a block of pointers."""
        return struct.unpack_from("<1024I", self.octets, self.block(block))

    def file(self, number):
        """The octets of a file."""
        return b"".join(self.octets[self.block(it):][:BLOCK] for it in self.owned(number)[0])[:self.size(number)]

    def named(self, name):
        """The inode of the file of this name, if there is one."""
        slot = (bytes([len(name)]) + name).ljust(RECORD, b"\0")
        return next((it for it in range(self.inodes) if self.octets[self.slot(it):][:RECORD] == slot), None)

    def packed(self):
        """The files in the pack: of each its name, where its content begins in the pack, and its size."""
        pack = self.named(b"p")
        octets, at = b"" if pack is None else self.file(pack), 0
        while at < len(octets):
            name = octets[at + 1:at + 1 + octets[at]]
            size, = struct.unpack_from("<I", octets, at + 1 + len(name))
            at += 5 + len(name)
            yield name, at, size
            at += size

    def bit(self, block, at=None):
        """The octet of the bitmap that has a block's mark, with the mark changed, and its place."""
        at = (self.block(0) if at is None else at) + block // 8
        return at, bytes([self.octets[at] ^ 1 << block % 8])

    def changed(self, changes):
        """The octets with these at these places, the later over the earlier."""
        whole = bytearray(self.octets)
        for at, changed in changes:
            whole[at:at + len(changed)] = changed
        return bytes(whole)

    def write(self, changes=()):
        """Writes the volume anew, with these octets at these places."""
        with open(self.path, "wb") as file:
            file.write(self.changed(changes))


def small_one(volume):
    """A volume with a group, an article of one block, one with a block of pointers, and an expiry, which stands in the pack. All
    segments are closed."""
    small = volume.another("small", blocks=1024, inodes=64)
    small.make_group()
    with small.serve() as server, server.call() as caller:
        for sent in (article(1), long_article(2, LONG_OCTETS)):
            assert caller.post(sent) == "240 Article received"
    small.expire(1)
    small.settle()
    image = Image(small.path)
    assert not image.open
    return small, image


def with_open_segments(volume):
    """A volume with two open segments: of a group, and of an article in it."""
    small = volume.another("open", blocks=1024, inodes=64)
    small.make_group()
    small.settle()
    with small.serve() as server, server.call() as caller:
        for number in range(2):
            assert caller.post(article(number)) == "240 Article received"
    image = Image(small.path)
    assert len(image.open) == 2, image.open
    return small, image


def assert_said(volume, words, said):
    done = volume.run(*words)
    assert (done.returncode, done.stdout, done.stderr.decode()) == (1, b"", "newsd: %s\n" % said), (words, said, done)


def assert_rows(volume, image, refusal, rows, stays=True, accepted=4):
    """Each row has changes of the octets and what they are told as, which stands after the refusal. The volume as it was has
    this many accepted changes."""
    for changes, said in rows:
        for word in ("dump", "status"):
            image.write(changes)
            assert_said(volume, [word, volume.path], "%s: %s" % (refusal, said) if said else refusal)
            if stays:
                assert octets(volume.path) == image.changed(changes), said
    image.write()
    assert volume.dump()[0] == "spool %d" % accepted


def what_is_no_volume_is_told(volume):
    small, image = small_one(volume)
    rows = [
        (0, b"Y", "the superblock doesn't begin with XNNTPFS1"),
        (7, b"2", "the superblock doesn't begin with XNNTPFS1"),
        (8, b"\2", "the superblock is of version 2, where this program reads version 1"),
        (12, u32(1023), "the superblock says 1,023 blocks, where a volume has 1,024 to 4,194,304"),
        (12, u32(4194305), "the superblock says 4,194,305 blocks, where a volume has 1,024 to 4,194,304"),
        (16, b"\2", "the superblock says 2 segments, where a volume has 1 or 8"),
        (12, u32(1025), "the file has 21,041,152 octets, where its superblock asks for 21,045,248"),
        (16, b"\1", "the file has 21,041,152 octets, where its superblock asks for 6,303,744"),
        (20, u32(65), "the label says 65 inodes, where a volume has a multiple of 64 from 64 to 4,194,304"),
        (20, u32(0), "the label says 0 inodes, where a volume has a multiple of 64 from 64 to 4,194,304"),
        (20, u32(4194368), "the label says 4,194,368 inodes, where a volume has a multiple of 64 from 64 to 4,194,304"),
        (20, u32(32768), "the label says 32,768 inodes, for which 1,024 blocks are too few"),
        (24, b"\0", "the label's host has 0 octets, where a host has 1 to 64"),
        (24, b"\x41", "the label's host has 65 octets, where a host has 1 to 64"),
        (25, b" ", "the label's host ' ews.example' is no name of a server"),
        (25, b"\x1b", r"the label's host '\x1bews.example' is no name of a server"),
        (37, b"\1", "octet 37 of the superblock isn't zero"),
        (147, b"\1", "octet 147 of the superblock isn't zero"),
        (REST_AT, b"\1", "octet 151 of the superblock isn't zero"),
        (4095, b"\xff", "octet 4095 of the superblock isn't zero"),
    ]
    assert_rows(small, image, NOT_A_VOLUME, [([(at, changed)], said) for at, changed, said in rows])
    # the first thing that is wrong is told
    both = [(0, b"Y"), (8, b"\2")]
    assert_rows(small, image, NOT_A_VOLUME, [(both, rows[0][2]), (both[1:] + [(REST_AT, b"\1")], rows[2][2])])


def a_length_is_told(volume):
    small, image = small_one(volume)
    asked = "the file has %s octets, where its superblock asks for 21,041,152"
    fewer = "the file has %s octets, fewer than the 4,096 of a superblock"
    for content, said in (
        (image.octets[:-BLOCK], asked % "21,037,056"),
        (image.octets[:-1], asked % "21,041,151"),
        (image.octets + b"\0", asked % "21,041,153"),
        (image.octets[:BLOCK], asked % "4,096"),
        (image.octets[:BLOCK - 1], fewer % "4,095"),
        (b"", fewer % "0"),
        (b"-" * 5000, "the superblock doesn't begin with XNNTPFS1"),
    ):
        with open(small.path, "wb") as file:
            file.write(content)
        for word in ("dump", "status"):
            assert_said(small, [word, small.path], "%s: %s" % (NOT_A_VOLUME, said))


def open_segments_are_told(volume):
    small, image = with_open_segments(volume)
    first, second = image.open
    at = image.descriptor(second)
    numbers = at + NUMBERS_AT
    named = struct.unpack_from("<I", image.octets, numbers)[0]
    assert_rows(small, image, NOT_A_VOLUME, [
        ([(at + COUNT_AT, u32(0))], "open segment %d counts 0 images, where a batch has 1 to 512" % second),
        ([(at + COUNT_AT, u32(513))], "open segment %d counts 513 images, where a batch has 1 to 512" % second),
        ([(numbers, u32(1024))], "open segment %d has an image of block 1024, where there are 1,024 blocks" % second),
        ([(numbers + 4, u32(named))], "open segment %d has two images of block %d" % (second, named)),
        ([(at + ZEROS_AT, b"\1")], "octet 20 of the descriptor of open segment %d isn't zero" % second),
        ([(at + ZEROS_AT + 3, b"\1")], "octet 23 of the descriptor of open segment %d isn't zero" % second),
        ([(at, image.octets[image.descriptor(first):][:8])], "open segments %d and %d both have number 1" % (first, second)),
        # a segment is open whose descriptor was never written
        ([(image.gate(7), bytes([image.epoch]))], "open segment 7 counts 0 images, where a batch has 1 to 512"),
    ], stays=False, accepted=3)


def images_of_open_segments_are_carried_home_first(volume):
    """A refusal as damaged comes after that, and what is told is read at the homes."""
    small, image = with_open_segments(volume)
    first, second = image.open
    article_slot = image.image(second, 3) + RECORD * ARTICLE
    assert image.octets[article_slot + 1:][:12] == b"a.0000000002", image.octets[article_slot:][:RECORD]
    assert_rows(small, image, DAMAGED, [
        ([image.bit(1000, image.image(second, 0))], "the bitmap marks block 1000, which no file owns"),
        ([image.bit(0, image.image(second, 0))], "the bitmap doesn't mark block 0, which is before the data"),
        ([(image.image(second, 2) + RECORD * 40, b"\1")], "inode 40 is a file, and its slot is free"),
        ([(article_slot + 1, b"z")], "file z.0000000002 has a name of no known form"),
        ([(image.image(second, 2) + RECORD * ARTICLE, b"\2")], "inode 3 is of kind 2, where 0 is free and 1 is a file"),
    ], stays=False, accepted=3)
    # what an image lies over isn't looked at
    image.write([image.bit(1000), (image.image(first, 0), b"\0")])
    assert small.dump()[0] == "spool 3"


def damaged_inodes_are_told(volume):
    small, image = small_one(volume)
    inode, slot = image.inode, image.slot
    size = image.size(ARTICLE)
    past = POINTERS_AT + 4
    rows = [
        (inode(PACK), b"\7", "inode 5 is of kind 7, where 0 is free and 1 is a file"),
        (inode(FREE) + 9, b"\1", "inode 6 is free, and octet 9 of it isn't zero"),
        (slot(FREE), b"\1", "inode 6 is free, and octet 0 of its slot isn't zero"),
        (slot(63) + 63, b"\1", "inode 63 is free, and octet 63 of its slot isn't zero"),
        (slot(PACK), b"\0", "inode 5 is a file, and its slot is free"),
        (slot(PACK), b"\x40", "the slot of inode 5 has a name of 64 octets, where names have 1 to 63"),
        (slot(PACK) + 2, b"\1", "octet 2 of the slot of inode 5, after the name, isn't zero"),
        (slot(PACK) + 63, b"\1", "octet 63 of the slot of inode 5, after the name, isn't zero"),
        (inode(ARTICLE) + SIZE_AT, u64(MOST_OCTETS_2 + 1), too_large("a.0000000002", MOST_OCTETS_2 + 1, 3)),
        (inode(ARTICLE) + SIZE_AT, u64(10**18), too_large("a.0000000002", 10**18, 3)),
        (inode(ARTICLE) + SPARE_AT, b"\1", "octet 60 of the inode of file a.0000000002 isn't zero"),
        (inode(ARTICLE) + SPARE_AT + 3, b"\1", "octet 63 of the inode of file a.0000000002 isn't zero"),
        (inode(ARTICLE) + SIZE_AT, u64(MOST_OCTETS_1 + 1), "file a.0000000002 of 4,235,265 octets has no double-indirect block"),
        (inode(ARTICLE) + DOUBLE_AT, u32(4), "file a.0000000002 of %d octets has a double-indirect block" % size),
        (inode(LONG) + INDIRECT_AT, u32(0), "file a.0000000003 of %s octets has no block of pointers 0" % grouped(image.size(LONG))),
        (inode(ARTICLE) + INDIRECT_AT, u32(4), "file a.0000000002 of %d octets has a block of pointers 0" % size),
        (inode(ARTICLE) + POINTERS_AT, u32(3), "file a.0000000002 points to block 3, which is none of the data"),
        (inode(ARTICLE) + POINTERS_AT, u32(1024), "file a.0000000002 points to block 1024, which is none of the data"),
        (inode(LONG) + INDIRECT_AT, u32(1024), "file a.0000000003 points to block 1024, which is none of the data"),
        (inode(ARTICLE) + POINTERS_AT, u32(0), "file a.0000000002 of %d octets has no pointer 0" % size),
        (inode(ARTICLE) + past, u32(9), "file a.0000000002 of %d octets has a pointer 1" % size),
        (inode(ARTICLE) + SIZE_AT, u64(4097), "file a.0000000002 of 4,097 octets has no pointer 1"),
    ]
    # octets of a name that a terminal wouldn't show
    odd = [(slot(ARTICLE) + 1, b"\x1b.\xff"), (inode(ARTICLE) + SPARE_AT, b"\1")]
    told = [(odd, r"octet 60 of the inode of file \x1b.\xff000000002 isn't zero")]
    # whatever is at the gates of format 1, a refusal leaves it there
    for gates in (b"\0\0", b"\1\2", b"\xff\xff"):
        large = [(GATES_AT, gates), (inode(ARTICLE) + SIZE_AT, u64(MOST_OCTETS_1 + 1))]
        told.append((large, too_large("a.0000000002", MOST_OCTETS_1 + 1, 1)))
    assert_rows(small, image, DAMAGED, told + [([(at, changed)], said) for at, changed, said in rows])


def too_large(name, size, of_format):
    most = MOST_OCTETS_1 if of_format == 1 else MOST_OCTETS_2
    return "file %s has %s octets, where a file has at most %s in format %d" % (name, grouped(size), grouped(most), of_format)


def grouped(number):
    return format(number, ",")


def a_large_file(image, double, tables, first):
    """The changes that give the free inode a file of 1,035 blocks: its double-indirect block, its two blocks of pointers, and
    those of its content from `first` on."""
    pointers = list(range(first, first + 1035))
    inode = u32(1) + u64(4096 * len(pointers)) + b"".join(map(u32, pointers[:10] + [tables[0], double]))
    marks = bytearray(image.octets[image.block(0):][:BLOCK])
    for block in [double, *tables, *pointers]:
        marks[block // 8] |= 1 << block % 8
    return [
        (image.block(0), bytes(marks)),
        (image.inode(FREE), inode),
        (image.slot(FREE), b"\1z"),
        (image.block(double), u32(tables[1])),
        (image.block(tables[0]), b"".join(map(u32, pointers[10:1034]))),
        (image.block(tables[1]), u32(pointers[1034])),
    ]


def damaged_large_files_are_told(volume):
    large = volume.another("large", blocks=2048, inodes=64)
    large.make_group()
    large.settle()
    image = Image(large.path)
    double, tables, first, outside = 500, (501, 502), 503, 2048
    base = a_large_file(image, double, tables, first)
    inode, double_at = image.inode(FREE), image.block(double)
    first_table, second_table = (image.block(table) for table in tables)
    free = first + 1035
    of_size = "file z of 4,239,360 octets has "
    none_of_data = "file z points to block %d, which is none of the data"
    rows = [
        ([], "file z has a name of no known form"),
        ([(GATES_AT, b"\0\0")], too_large("z", 4239360, 1)),
        ([(inode + SIZE_AT, u64(MOST_OCTETS_2))], "file z of 4,294,963,200 octets has no block of pointers 2"),
        ([(inode + SIZE_AT, u64(MOST_OCTETS_1))], "file z of 4,235,264 octets has a double-indirect block"),
        ([(inode + DOUBLE_AT, u32(0))], of_size + "no double-indirect block"),
        ([(inode + DOUBLE_AT, u32(3))], none_of_data % 3),
        ([(inode + DOUBLE_AT, u32(outside))], none_of_data % outside),
        ([(inode + INDIRECT_AT, u32(0))], of_size + "no block of pointers 0"),
        ([(double_at, u32(0))], of_size + "no block of pointers 1"),
        ([(double_at, u32(1))], none_of_data % 1),
        ([(double_at, u32(outside))], none_of_data % outside),
        ([(double_at + 4, u32(free))], of_size + "a block of pointers 2"),
        ([(double_at + 4 * 1023, u32(free))], of_size + "a block of pointers 1024"),
        ([(second_table + 4, u32(free))], of_size + "a pointer 1035"),
        ([(second_table + 4 * 1023, u32(free))], of_size + "a pointer 2057"),
        ([(first_table, u32(0))], of_size + "no pointer 10"),
        ([(second_table, u32(0))], of_size + "no pointer 1034"),
        ([(second_table, u32(outside))], none_of_data % outside),
        ([(second_table, u32(double))], "block %d is owned twice by file z" % double),
        ([(double_at, u32(double))], "block %d is owned twice by file z" % double),
        ([(first_table + 4 * 1023, u32(tables[1]))], "block %d is owned twice by file z" % tables[1]),
    ]
    assert_rows(large, image, DAMAGED, [(base + changes, said) for changes, said in rows], accepted=1)


def damaged_owners_are_told(volume):
    small, image = small_one(volume)
    inode, slot = image.inode, image.slot
    group, own = image.pointer(GROUP_FILE), image.pointer(ARTICLE)
    long_one, indirect = image.pointer(LONG), struct.unpack_from("<I", image.octets, image.inode(LONG) + INDIRECT_AT)[0]
    name = image.octets[slot(ARTICLE):][:RECORD]
    assert_rows(small, image, DAMAGED, [
        ([(inode(ARTICLE) + POINTERS_AT, u32(group))], "block %d is owned by file g.x.a and by file a.0000000002" % group),
        ([(inode(LONG) + POINTERS_AT + 4, u32(long_one))], "block %d is owned twice by file a.0000000003" % long_one),
        ([(inode(LONG) + POINTERS_AT + 4, u32(indirect))], "block %d is owned twice by file a.0000000003" % indirect),
        ([image.bit(1000)], "the bitmap marks block 1000, which no file owns"),
        ([image.bit(0)], "the bitmap doesn't mark block 0, which is before the data"),
        ([image.bit(3)], "the bitmap doesn't mark block 3, which is before the data"),
        ([image.bit(own)], "the bitmap doesn't mark block %d, which file a.0000000002 owns" % own),
        ([image.bit(indirect)], "the bitmap doesn't mark block %d, which file a.0000000003 owns" % indirect),
        ([image.bit(1024)], "the bitmap marks block 1024, where there are 1,024 blocks"),
        ([image.bit(65535)], "the bitmap marks block 65535, where there are 1,024 blocks"),
        ([(slot(LONG), name)], "inodes 3 and 4 both have the name of file a.0000000002"),
    ])


def damaged_files_are_told(volume):
    small, image = small_one(volume)
    inode, slot, content, size = image.inode, image.slot, image.content, image.size
    short = size(ARTICLE) - 1
    rows = [
        (slot(ARTICLE) + 1, b"z", "file z.0000000002 has a name of no known form"),
        (slot(ARTICLE) + 12, b"c", "file a.000000000c has a name of no known form"),
        (slot(GROUP_FILE) + 5, b".", "file g.x.. has a name of no known form"),
        (slot(PACK) + 1, b"q", "file q has a name of no known form"),
        (GATES_AT, b"\2\0", "file p has a name of no known form"),
        (slot(NUMBERS) + 5, b"b", "file g.x.a is there, and file n.x.a isn't"),
        (slot(OVERVIEW) + 5, b"b", "file g.x.a is there, and file o.x.a isn't"),
        (slot(GROUP_FILE) + 5, b"b", "file g.x.b is there, and file n.x.b isn't"),
        (inode(NUMBERS) + SIZE_AT, u64(17), "file n.x.a has 17 octets, which is no multiple of 16"),
        (inode(GROUP_FILE) + SIZE_AT, u64(16), "file g.x.a has 16 octets, fewer than the 17 of its header"),
        (inode(ARTICLE) + SIZE_AT, u64(20), "file a.0000000002 has 20 octets, fewer than the 21 of its header"),
        (content(ARTICLE), b"\3", "file a.0000000002 has serial 3"),
        (content(GROUP_FILE), b"\0", "file g.x.a has serial 0, which is none of 1 to 65"),
        (content(GROUP_FILE), b"\x42", "file g.x.a has serial 66, which is none of 1 to 65"),
        (content(GROUP_FILE), b"\2", "file g.x.a and file a.0000000002 both have serial 2"),
        (content(GROUP_FILE), b"\5", "no file has serial 1, and one has serial 2"),
        (content(GROUP_FILE) + 8, u64(TOO_LATE), "file g.x.a has the moment %d, which isn't before the year 10000" % TOO_LATE),
        (content(ARTICLE) + 8, u64(TOO_LATE), "file a.0000000002 has the moment %d, which isn't before the year 10000" % TOO_LATE),
        (content(GROUP_FILE) + 16, b"m", "file g.x.a has a status that is neither y nor n"),
        (inode(GROUP_FILE) + SIZE_AT, u64(218), "file g.x.a has a description of 201 octets, where 200 are the most"),
        (content(GROUP_FILE) + 17, b"\7", "octet 17 of file g.x.a is 7, where a description has 32 to 126"),
        (content(GROUP_FILE) + 18, b"\x7f", "octet 18 of file g.x.a is 127, where a description has 32 to 126"),
        (inode(ARTICLE) + SIZE_AT, u64(short), "file a.0000000002 has %d octets, where its header asks for %d" % (short, short + 1)),
        (content(ARTICLE) + 16, u32(2**32 - 1), "file a.0000000002 has %d octets, where its header asks for 4,294,967,320" % (short + 1)),
        (content(ARTICLE) + 20, b"\xff", "file a.0000000002 has %d octets, in which its header doesn't end" % (short + 1)),
    ]
    assert_rows(small, image, DAMAGED, [([(at, changed)], said) for at, changed, said in rows])


def a_damaged_pack_is_told(volume):
    small, image = small_one(volume)
    inode, content = image.inode(PACK), image.content(PACK)
    assert image.octets[content:][:PACKED] == b"\x0cx.0000000004" + u32(16), image.octets[content:][:PACKED]
    size, serial = inode + SIZE_AT, content + PACKED
    empty = [(size, u64(0)), (inode + POINTERS_AT, u32(0)), image.bit(image.pointer(PACK))]
    no_form = "the file at octet 0 of file p has a name of no form for a file in the pack"
    assert_rows(small, image, DAMAGED, [
        (empty, "file p, the pack, is empty"),
        ([(size, u64(16))], "file p ends in the head of its file at octet 0"),
        ([(size, u64(32))], "file p ends in its file at octet 0"),
        ([(size, u64(34))], "file p ends in the head of its file at octet 33"),
        ([(content, b"\x0d")], "the file at octet 0 of file p has a name of 13 octets, where one in the pack has 12"),
        ([(content + PACKED_NAME, b"g")], no_form),
        ([(content + PACKED_NAME + 11, b"c")], no_form),
        ([(content + PACKED_SIZE, u32(2**32 - 1))], "file p ends in its file at octet 0"),
        ([(content + PACKED_SIZE, u32(12)), (size, u64(29))],
         "file x.0000000004 in the pack has 12 octets, fewer than the 13 of its header"),
        ([(serial, b"\3")], "file x.0000000004 in the pack has serial 3"),
        ([(content + PACKED_NAME + 11, b"3"), (serial, b"\3")],
         "file a.0000000003 and file x.0000000003 in the pack both have serial 3"),
        ([(content + PACKED_NAME + 10, b"66"), (serial, b"\x42")],
         "file x.0000000066 in the pack has serial 66, which is none of 1 to 65"),
        ([(serial + 12, b"\4")], "file x.0000000004 in the pack has 16 octets, where its header asks for 17"),
    ])


def a_file_behind_others_in_a_pack_is_told(volume):
    """Of a pack that a renewal made: three articles that are gone, and the expiry that took them out."""
    small = volume.another("small", blocks=1024, inodes=64)
    small.make_group()
    with small.serve() as server, server.call() as caller:
        for number in range(4):
            assert caller.post(article(number)) == "240 Article received"
    small.expire(3)
    small.run("renew", small.path, "--in-place").check_returncode()
    small.settle()
    image = Image(small.path)
    inode, content, size = image.inode(ARTICLE), image.content(ARTICLE), image.size(ARTICLE)
    member, = struct.unpack_from("<I", image.octets, content + PACKED_SIZE)
    member += PACKED
    second, third, last = (content + it * member for it in (1, 2, 3))
    assert size == 3 * member + PACKED + 16 and [image.octets[it:][:2] for it in (second, third, last)] == [b"\x0ca", b"\x0ca", b"\x0cx"]
    name = "file a.0000000003 in the pack"
    assert_rows(small, image, DAMAGED, [
        # each octet of the second one's size: what follows it is no file, or it has no end
        ([(second + PACKED_SIZE, u32(member - PACKED + 1))],
         "the file at octet %d of file p has a name of 97 octets, where one in the pack has 12" % (2 * member + 1)),
        ([(second + PACKED_SIZE + 1, b"\7")], "file p ends in its file at octet %d" % member),
        ([(second + PACKED_SIZE + 3, b"\1")], "file p ends in its file at octet %d" % member),
        ([(second, b"\x0b")], "the file at octet %d of file p has a name of 11 octets, where one in the pack has 12" % member),
        ([(inode + SIZE_AT, u64(size - 1))], "file p ends in its file at octet %d" % (3 * member)),
        ([(inode + SIZE_AT, u64(2 * member))], "no file has serial 4, and one has serial 5"),
        ([(second + PACKED, b"\2")], name + " has serial 2"),
        ([(second + PACKED + 16, b"\1")], name + " has %d octets, where its header asks for 26" % (member - PACKED)),
        ([(second + PACKED_NAME + 11, b"2"), (second + PACKED, b"\2")],
         "file a.0000000002 in the pack and file a.0000000002 in the pack both have serial 2"),
        # the pack of a volume that says format 2
        ([(GATES_AT + 1, b"\0")], "file p has a name of no known form"),
    ], accepted=6)


def what_is_not_found_is_refused_as_ever(volume):
    """What the articles, the numbers and the overview hold isn't looked at."""
    small, image = small_one(volume)
    assert_rows(small, image, DAMAGED, [
        ([(image.content(ARTICLE) + 25, b"\0")], None),
        ([(image.content(NUMBERS), b"\7")], None),
        ([(image.content(OVERVIEW), b"\0")], None),
        ([(image.content(PACK) + PACKED + 13, b"y")], None),
    ])


def each_command_tells(volume):
    small, image = small_one(volume)
    for changes, said in (
        ([(REST_AT, b"\1")], "E3 NotAVolume: octet 151 of the superblock isn't zero"),
        ([image.bit(1000)], "E5 Damaged: the bitmap marks block 1000, which no file owns"),
    ):
        image.write(changes)
        for words in (["dump"], ["status"], ["status", "--json"], ["export"], ["import"], ["group", "x.b", "y", "1000000000", "test"],
                      ["expire", GROUP, "1"], ["serve", "--port", str(free_port())]):
            assert_said(small, [words[0], small.path, *words[1:]], said)


def a_volume_that_another_has_meanwhile_is_refused_as_ever(volume):
    """The look needs the lock that the opening has let go. Whoever waits for it takes it in between, or not."""
    small, image = small_one(volume)
    image.write([(REST_AT, b"\1")])
    ends = ("newsd: E3 NotAVolume: octet 151 of the superblock isn't zero\n", "newsd: E3 NotAVolume\n")
    with subprocess.Popen([sys.executable, "-c", HOLDING, small.path], preexec_fn=end_with_parent) as holder:
        for _ in range(50):
            said = small.run("dump", small.path).stderr.decode()
            assert said in ends or said.startswith("newsd: E1 Fault: the volume is in use by "), said
        holder.kill()
        holder.wait(SECONDS)


def memory_that_is_refused_leaves_the_refusal(volume):
    """Each request for memory is refused in turn: to the opening, or to the look and its words."""
    small, image = small_one(volume)
    image.write([(REST_AT, b"\1")])
    whole = "newsd: E3 NotAVolume: octet 151 of the superblock isn't zero\n"
    with tempfile.TemporaryDirectory(prefix="newsd-findings-") as folder:
        library = compile_library(folder)
        if library is None:
            raise Skipped("there is no compiler for C")
        ends = {"newsd: E2 Memory\n": 0, "newsd: E3 NotAVolume\n": 0, whole: 0}
        for number in range(1, 200):
            refused = os.path.join(folder, str(number))
            settings = {"LD_PRELOAD": library, "NEWSD_REFUSED_REQUEST": str(number), "NEWSD_REFUSED": refused}
            status, printed, said = ends_as([small.program, "dump", small.path], **settings)
            assert (status, printed) == (1, "") and said in ends, (number, said)
            if not os.path.exists(refused):
                break
            ends[said] += 1
        else:
            raise AssertionError("requests have no end")
    assert ends["newsd: E2 Memory\n"] > 0 and ends["newsd: E3 NotAVolume\n"] > 0, ends


TESTS = [
    what_is_no_volume_is_told,
    a_length_is_told,
    open_segments_are_told,
    images_of_open_segments_are_carried_home_first,
    damaged_inodes_are_told,
    damaged_large_files_are_told,
    damaged_owners_are_told,
    damaged_files_are_told,
    a_damaged_pack_is_told,
    a_file_behind_others_in_a_pack_is_told,
    what_is_not_found_is_refused_as_ever,
    each_command_tells,
    a_volume_that_another_has_meanwhile_is_refused_as_ever,
    memory_that_is_refused_leaves_the_refusal,
]


if __name__ == "__main__":
    sys.exit(main(TESTS))
