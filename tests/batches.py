#!/usr/bin/env python3
"""System tests of `newsd export` and `newsd import`: batches of articles. batches.py NEWSD [NAME..]"""
import fcntl
import grp
import json
import os
import pty
import pwd
import random
import re
import resource
import select
import shutil
import signal
import struct
import subprocess
import sys
import termios
import time
import tty

from newsd import GROUP, HOST, NO_SUPERBLOCK, SECONDS, SECONDS_OF_WORK, article, end_with_parent, long_article, message_id, wait_until
from playing import Skipped, main

OTHER_HOST = "other.example"
TRANSFERRED = "x.c"
LARGEST = 262144
LONGEST_HEADER = 8192
# articles of the batch whose import is killed, and how often it is
MANY, VOLUMES, KILLS_EACH = 1000, 4, 5
# a volume with room for them is small, and soon made and opened
SMALL = {"blocks": 2048, "inodes": 1088}
# a volume of so many inodes has so many that an article leaves; the inodes of a group, and groups that take most of them
INODES, LEFT, GROUP_FILES, FULL_GROUPS = 2048, 64, 3, 600
# the size of a text that doesn't go into the pack
TOO_LONG_TO_PACK = 32_769
KINDS = ("filed", "here", "no group")
NO_END = "no empty line follows the header"
TOO_LONG = "its header has more than 8192 octets, or the article more than 262144"
# the address space of an import that passes over more than that
LITTLE_MEMORY = 60 << 20
# the causes for which an article is refused, in the order in which they are counted
CAUSES = (
    "it holds NUL or a single CR, or its last line has no end", NO_END, "a line of the header is no field", "a field occurs twice",
    "a mandatory field is missing", "the message-id isn't valid", "its groups aren't 1 to 16 different group names",
    TOO_LONG, "the message-id is one of this host's own")
# what begins a line of progress in the place of the last one, and the line
ERASE = "\r\x1b[K"
PROGRESS = re.compile(r"(\d+) articles, (\d+) octets, (\d+) articles a second")


def articles_are_exported_as_a_batch(volume):
    """Those of one group in rising number, or all that are in one in rising serial."""
    volume.make_group()
    volume.make_group("x.b")
    groups = {1: "x.b", 2: GROUP, 3: "x.b,x.a", 4: GROUP}
    with volume.serve() as server, server.call() as caller:
        for number, names in groups.items():
            posted = article(number, body="..x").replace(b"Newsgroups: x.a", b"Newsgroups: " + names.encode())
            assert caller.post(posted) == "240 Article received"
        texts = {number: stored_text(caller, message_id(number)) for number in groups}
    assert texts[2].endswith(b"\r\n\r\n.x\r\n"), texts[2]
    for words, numbers in (([], [1, 2, 3, 4]), ([GROUP], [2, 3, 4]), (["x.b"], [1, 3])):
        assert volume.export(*words) == batch(with_lf(texts[number]) for number in numbers), words
        assert volume.export(*words, "--crlf") == batch(texts[number] for number in numbers), words
    volume.expire(2)
    volume.expire(1, "x.b")
    for words, numbers in (([], [3, 4]), ([GROUP], [4]), (["x.b"], [3])):
        assert volume.export(*words, "--crlf") == batch(texts[number] for number in numbers), words
    for words, said in ((["x.c"], "E12 NotFound: the group isn't here"), (["x..c"], "E14 Bad: GROUP 'x..c' is no name of a group")):
        refused = volume.run("export", volume.path, *words)
        assert (refused.returncode, refused.stdout, refused.stderr.decode()) == (1, b"", "newsd: %s\n" % said), refused


def rnews_reads_what_was_exported(volume):
    """`rnews` of INN, and `import`, file the same. What it sends has CR CR LF for each CRLF of a batch, so it wants LF."""
    program = shutil.which("rnews", path=os.environ["PATH"] + ":/usr/lib/news/bin")
    if program is None:
        raise Skipped("rnews isn't installed")
    # rnews may go on as the user `news`
    os.chmod(os.path.dirname(volume.path), 0o755)
    volume.make_group()
    with volume.serve() as server, server.call() as caller:
        for number in range(1, 21):
            assert caller.post(article(number, body="..x\r\n" * number)) == "240 Article received"
    written = volume.export()
    other, imported, doubled = (volume.another(it) for it in ("other", "imported", "doubled"))
    for each in (other, imported, doubled):
        each.make_group()
    feed_by_rnews(program, other, written)
    assert other.export() == written
    import_whole(imported, written, filed=20)
    assert imported.export() == written
    feed_by_rnews(program, doubled, volume.export("--crlf"))
    assert doubled.export() == b""


def feed_by_rnews(program, volume, written):
    directory = os.path.dirname(volume.path)
    settings = ("pathhost: a.example", "domain: example", "mta: /bin/false", "hismethod: hisv6", "ovmethod: tradindexed")
    user, group = pwd.getpwuid(os.getuid()).pw_name, grp.getgrgid(os.getgid()).gr_name
    places = ["%s: %s" % (name, directory) for name in ("pathnews", "pathincoming", "pathspool", "pathtmp", "pathetc", "pathrun")]
    os.chmod(directory, 0o777)
    write(directory + "/inn.conf", "\n".join([*settings, "runasuser: " + user, "runasgroup: " + group, *places, ""]).encode())
    with volume.serve() as server:
        words = [program, "-N", "-S", "127.0.0.1", "-P", str(server.port)]
        given = dict(os.environ, INNCONF=directory + "/inn.conf")
        subprocess.run(words, input=written, env=given, capture_output=True, timeout=SECONDS_OF_WORK, check=True)


def another_host_imports_what_was_exported(volume):
    """Each article has the text, the groups and the order that it had. What is imported a second time is there already."""
    fill(volume)
    texts = {words: volume.export(*words) for words in ((), ("--crlf",), (GROUP,), ("x.b",), (TRANSFERRED,))}
    count = len(entries(texts[()]))
    assert count == 11, count
    for line_ends in ((), ("--crlf",)):
        other = volume.another("other" + "".join(line_ends), host=OTHER_HOST)
        make_groups(other)
        import_whole(other, texts[line_ends], filed=count)
        for words, text in texts.items():
            theirs = other.export(*words)
            if words in ((), ("--crlf",)):
                assert theirs == text, words
            # what was taken out of one of its groups alone is in all of them again
            kept = set(entries(text))
            assert [it for it in entries(theirs) if it in kept] == entries(text), words
        mine, theirs = ([line.split()[2:] for line in it.dump()[1:] if line.split()[1] == "article"] for it in (volume, other))
        ids = [line[0] for line in theirs]
        assert theirs == [line for line in mine if line[0] in ids] and len(ids) == count < len(mine), (mine, theirs)
        with volume.serve() as server, other.serve() as another, server.call() as caller, another.call() as stranger:
            for name in ids:
                assert stored_text(caller, name) == stored_text(stranger, name), name
        for again in ((), ("--crlf",)):
            import_whole(other, texts[again], here=count)
        # one that is gone was here, too
        other.expire(1)
        import_whole(other, texts[line_ends], here=count)


def an_import_that_is_killed_goes_on(volume):
    """It is killed at random moments. Each time the volume opens and holds the first articles, each once."""
    written = batch(with_lf(text_of(number)) for number in range(MANY))
    ids = [message_id(number) for number in range(MANY)]
    path = os.path.join(os.path.dirname(volume.path), "batch")
    write(path, written)
    whole = volume.another("whole", **SMALL)
    whole.make_group()
    start = time.monotonic()
    import_whole(whole, written, filed=MANY)
    seconds = time.monotonic() - start
    chance = seeded()
    found = []
    for number in range(VOLUMES):
        other = volume.another("round%d" % number, **SMALL)
        other.make_group()
        there = 0
        for _ in range(KILLS_EACH):
            kill_an_import(other, path, chance.uniform(0, seconds))
            kept = ids_of(other)
            assert kept == ids[:len(kept)] and len(kept) >= there, (len(kept), there)
            there = len(kept)
            found.append(there)
        import_whole(other, written, filed=MANY - there, here=there)
        assert ids_of(other) == ids and other.export() == written
    print("  after each kill there were", found, flush=True)


def kill_an_import(volume, path, seconds):
    with open(path, "rb") as given:
        words = [volume.program, "import", volume.path]
        process = subprocess.Popen(words, stdin=given, stdout=subprocess.DEVNULL, stderr=subprocess.DEVNULL, preexec_fn=end_with_parent)
    try:
        process.wait(seconds)
    except subprocess.TimeoutExpired:
        process.kill()
    assert process.wait(SECONDS) in (0, -signal.SIGKILL)


def each_article_has_an_outcome(volume):
    """It is filed, is here, names no group here, or is refused with its cause. None of them ends the import."""
    plain = with_lf(text_of(1))
    lines = plain.split(b"\n")
    rows = [
        (plain, "filed", None),
        (plain, "here", None),
        (with_lf(text_of(2)).replace(b"x.a", b"x.none"), "no group", None),
        (with_lf(text_of(3)).replace(b"x.a", b"x.none,x.a"), "filed", None),
        (plain.replace(b"<1@a.example>", b"<7@%s>" % HOST.encode()), "refused", "the message-id is one of this host's own"),
        (plain.replace(b"hi", b"h\0i"), "refused", "it holds NUL or a single CR, or its last line has no end"),
        (plain.replace(b"hi", b"h\ri"), "refused", "it holds NUL or a single CR, or its last line has no end"),
        (with_lf(text_of(4))[:-1], "refused", "it holds NUL or a single CR, or its last line has no end"),
        (b"\n".join(lines[:lines.index(b"")]) + b"\n", "refused", NO_END),
        (b"no field\n" + plain, "refused", "a line of the header is no field"),
        (b"Subject: two\n" + plain, "refused", "a field occurs twice"),
        (plain.replace(b"From: a@example.org\n", b""), "refused", "a mandatory field is missing"),
        (plain.replace(b"<1@a.example>", b"1@a.example"), "refused", "the message-id isn't valid"),
        (plain.replace(b"x.a", b"x..a"), "refused", "its groups aren't 1 to 16 different group names"),
        (plain.replace(b"x.a", b"x.a,x.a"), "refused", "its groups aren't 1 to 16 different group names"),
        (plain.replace(b"x.a", b",".join(b"x.%d" % it for it in range(17))), "refused", "its groups aren't 1 to 16 different group names"),
        (b"X: %s\n" % (b"x" * LONGEST_HEADER) + plain, "refused", TOO_LONG),
        (b"\n", "refused", None),
        (with_lf(long_article(6, LARGEST)[:-3]), "filed", None),
        (with_lf(text_of(8)), "filed", None),
    ]
    # with CRLF it is longer than a batch may have it
    longer = (with_lf(text_of(5)) + b"\n" * (LARGEST // 2), "refused", TOO_LONG)
    for name, ends, rows in (("lf", b"\n", [longer, *rows]), ("crlf", b"\r\n", rows)):
        other = volume.another(name)
        other.make_group()
        texts = [row[0].replace(b"\n", ends) for row in rows]
        done = imported(other, batch(texts))
        said, octet = [], 0
        for number, (text, row) in enumerate(zip(texts, rows), 1):
            if row[1] == "refused":
                said.append("newsd: article %d at octet %d: %s" % (number, octet, row[2]))
            octet += len(batch([text]))
        heard = done.stderr.decode().splitlines()
        assert len(heard) == len(said), heard
        causes = [line.split(": ", 2)[2] for line in heard]
        assert (done.returncode, done.stdout.decode()) == (1, counts(*(sum(row[1] == kind for row in rows) for kind in KINDS), causes)), done
        for line, wanted in zip(heard, said):
            assert line == wanted or wanted.endswith(": None") and line.startswith(wanted[:-4]), (line, wanted)
        assert ids_of(other) == [message_id(number) for number in (1, 3, 6, 8)]
        # without what was refused the status is 0
        kept = [text for text, row in zip(texts, rows) if row[1] != "refused"]
        import_whole(other, batch(kept), here=5, no_group=1)


def what_is_no_batch_ends_an_import(volume):
    """The articles before it are filed and counted, and those after it aren't."""
    good = batch(with_lf(text_of(number)) for number in (1, 2))
    rest = batch([with_lf(text_of(3))])
    for number, (tail, why) in enumerate((
        (b"From: a\n" + rest, "no line `#! rnews LENGTH`"),
        (b"\n" + rest, "no line `#! rnews LENGTH`"),
        (b"#! rnews", "the batch is cut short"),
        (b"#! rnews\n" + rest, "no line `#! rnews LENGTH`"),
        (b"#! cunbatch\n" + rest, "no line `#! rnews LENGTH`"),
        (b"#! rnews 12x\n" + rest, "the length is no number"),
        (b"#! rnews \n" + rest, "the length is no number"),
        (b"#! rnews -1\n" + rest, "the length is no number"),
        (rest[:-1], "the batch is cut short"),
        (rest[:14], "the batch is cut short"),
        (b"#! rnews 100\n", "the batch is cut short"),
        (b"#", "the batch is cut short"),
        (b"x", "the batch is cut short"),
    )):
        other = volume.another("volume%d" % number, blocks=1024, inodes=64)
        other.make_group()
        done = imported(other, good + tail)
        said = "newsd: E14 Bad: octet %d: %s\n" % (len(good), why)
        assert (done.returncode, done.stdout.decode(), done.stderr.decode()) == (1, counts(filed=2), said), (tail, done)
        assert ids_of(other) == [message_id(1), message_id(2)], tail
    empty = volume.another("empty", blocks=1024, inodes=64)
    import_whole(empty, b"")
    assert empty.dump() == ["spool 0"]


def an_article_that_is_too_long_is_passed_over(volume):
    """It counts as refused, its octets are passed over as they come, and what follows it is filed. One that is cut short ends the import."""
    good, last = [with_lf(text_of(number)) for number in (1, 2)], with_lf(text_of(3))
    inner = batch([with_lf(text_of(4))])
    longest = LARGEST + 1
    for name, texts in (("one", [good[0], b"x" * longest, good[1]]), ("first", [b"\n" * longest, *good]), ("last", [*good, b"x" * longest]),
                        ("two", [good[0], b"x" * longest, (inner * LARGEST)[:5_000_000], good[1]]), ("all", [b"x" * (longest + 1)] * 3)):
        other = volume.another(name, blocks=1024, inodes=64)
        other.make_group()
        said, octet = [], 0
        for number, text in enumerate(texts, 1):
            if len(text) > LARGEST:
                said.append("newsd: article %d at octet %d: %s\n" % (number, octet, TOO_LONG))
            octet += len(batch([text]))
        filed = 2 if good[0] in texts else 0
        # from a file, and from a pipe, in which all is there already
        for counted in (dict(filed=filed), dict(here=filed)):
            done = imported(other, batch(texts))
            assert (done.returncode, done.stdout.decode()) == (1, counts(**counted, causes=[TOO_LONG] * len(said))), (name, done)
            assert done.stderr.decode() == "".join(said), (name, done)
        assert ids_of(other) == [message_id(1), message_id(2)][:filed], name
        assert other.export() == batch(good[:filed]), name
    # a piece ends anywhere, and what is passed over takes no memory
    other = volume.another("pieces", blocks=1024, inodes=64)
    other.make_group()
    written = batch([good[0], b"x" * (64 << 20), good[1]])
    at = len(batch(good[:1]))
    done = fed_in_pieces(other, [written[:at + 3], written[at + 3:at + 20], written[at + 20:-700], written[-700:-3], written[-3:]])
    assert done == (1, counts(filed=2, causes=[TOO_LONG]), "newsd: article 2 at octet %d: %s\n" % (at, TOO_LONG)), done
    for size, tail in ((9_999_999_999_999_999, batch([last])), (longest, b"x" * (longest - 1)), (longest, b"")):
        other = volume.another("cut%d" % len(tail), blocks=1024, inodes=64)
        other.make_group()
        cut = batch(good) + b"#! rnews %d\n" % size + tail
        done = imported(other, cut)
        assert (done.returncode, done.stdout.decode()) == (1, counts(filed=2, causes=[TOO_LONG])), done
        assert done.stderr.decode() == "newsd: article 3 at octet %d: %s\nnewsd: E14 Bad: octet %d: the batch is cut short\n" % (
            len(batch(good)), TOO_LONG, len(cut)), done
        assert ids_of(other) == [message_id(1), message_id(2)]


def fed_in_pieces(volume, pieces):
    """The status, the counts and the faults of an import that gets these pieces one after another, and has little memory."""
    def limit():
        end_with_parent()
        resource.setrlimit(resource.RLIMIT_AS, (LITTLE_MEMORY, LITTLE_MEMORY))
    words = [volume.program, "import", volume.path]
    with subprocess.Popen(words, stdin=subprocess.PIPE, stdout=subprocess.PIPE, stderr=subprocess.PIPE, preexec_fn=limit) as process:
        for piece in pieces:
            process.stdin.write(piece)
            process.stdin.flush()
            time.sleep(0.05)
        said, faults = process.communicate(timeout=SECONDS_OF_WORK)
    return process.returncode, said.decode(), faults.decode()


def a_full_volume_ends_an_import(volume):
    """What was filed before is durable. The same batch goes on in a larger volume."""
    texts = [with_lf(text_of(number)) for number in range(80)]
    larger = [with_lf(long_article(number, 200_000)[:-3]) for number in range(30)]
    for name, batched, lacking in (("inodes", texts, "too few inodes are free"), ("blocks", larger, "too few blocks are free")):
        small = volume.another(name, blocks=1024, inodes=64)
        small.make_group()
        done = imported(small, batch(batched))
        there = ids_of(small)
        octet = len(batch(batched[:len(there)]))
        assert 0 < len(there) < len(batched), there
        assert (done.returncode, done.stdout.decode()) == (1, counts(filed=len(there))), done
        assert done.stderr.decode() == "newsd: E6 Full: article %d at octet %d: %s\n" % (len(there) + 1, octet, lacking), done
        assert small.export() == batch(batched[:len(there)])
        # articles for which no room is wanted don't end it
        again = imported(small, batch([*batched[:3], batched[0].replace(b"Newsgroups: x.a", b"Newsgroups: x.b")]))
        assert (again.returncode, again.stdout.decode(), again.stderr) == (0, counts(here=4), b""), again
        done = imported(small, batch(batched))
        assert (done.returncode, done.stdout.decode()) == (1, counts(here=len(there))), done
    larger_one = volume.another("larger", host=OTHER_HOST)
    larger_one.make_group()
    import_whole(larger_one, batch(texts), filed=len(texts))
    assert larger_one.export() == batch(texts)


def an_import_leaves_a_part_to_the_operator(volume):
    """Of 2,048 inodes it leaves 64, where a group and expiries find room. So does a renewal to as many. One of fewer leaves none. Groups take
    most of them here, and articles the others that are too long for the pack."""
    sizes = (2 * INODES, INODES, INODES - LEFT)
    roomy, large, small = (volume.another(str(inodes), blocks=8192, inodes=inodes) for inodes in sizes)
    texts = [with_lf(long_article(number, TOO_LONG_TO_PACK)[:-len(b".\r\n")]) for number in range(INODES - LEFT - GROUP_FILES * FULL_GROUPS + 1)]
    filed = len(texts) - 1
    octet, lacking = len(batch(texts[:filed])), "too few inodes are free"
    make_many_groups(roomy, FULL_GROUPS)
    for each, inodes in ((large, INODES), (small, INODES - LEFT)):
        os.unlink(each.path)
        roomy.run("renew", roomy.path, each.path, "--inodes", str(inodes)).check_returncode()
    import_whole(roomy, batch(texts), filed=len(texts))
    for each, inodes in ((large, INODES), (small, INODES - LEFT)):
        done = imported(each, batch(texts))
        assert (done.returncode, done.stdout.decode()) == (1, counts(filed=filed)), done
        assert done.stderr.decode() == "newsd: E6 Full: article %d at octet %d: %s\n" % (filed + 1, octet, lacking), done
        # so is a short one, which would go into the pack, as long as that may grow: then it asks for an inode
        done = imported(each, batch([with_lf(text_of("short"))]))
        assert (done.returncode, done.stderr.decode()) == (1, "newsd: E6 Full: article 1 at octet 0: %s\n" % lacking), done
        done = roomy.run("renew", roomy.path, each.path + ".new", "--inodes", str(inodes))
        assert (done.returncode, done.stdout) == (1, b""), done
        assert done.stderr.decode() == "newsd: E6 Full: change %d: %s\n" % (FULL_GROUPS + filed + 1, lacking), done
    assert_operator_has_room(large, FULL_GROUPS + filed + 1)
    for words in (["group", small.path, "x.b", "y", "1000000000", "test"], ["expire", small.path, GROUP, "1"]):
        done = small.run(*words)
        assert (done.returncode, done.stdout, done.stderr) == (1, b"", b"newsd: E6 Full\n"), done


def short_articles_leave_blocks_to_the_operator(volume):
    """They share the pack until less than 576 blocks are free, of which they leave 320. There are more of them than inodes."""
    full = volume.another("full", blocks=8192, inodes=INODES)
    full.make_group()
    texts = [with_lf(long_article(number, 10_000)[:-len(b".\r\n")]) for number in range(3_200)]
    done = imported(full, batch(texts))
    filed = int(done.stdout.split()[1])
    octet = len(batch(texts[:filed]))
    assert (done.returncode, done.stdout.decode()) == (1, counts(filed=filed)) and INODES < filed, done
    assert done.stderr.decode() == "newsd: E6 Full: article %d at octet %d: too few blocks are free\n" % (filed + 1, octet), done
    status = json.loads(full.run("status", full.path, "--json").stdout)
    assert status["inodes"]["used"] == GROUP_FILES + 1 and 570 < status["blocks"]["free"] < 576, status
    assert_operator_has_room(full, filed + 2)


def make_many_groups(volume, count):
    """The group of the articles, and others until there are so many."""
    with volume.serve() as server:
        for number, name in enumerate([GROUP, *("y.%d" % it for it in range(count - 1))], 1):
            assert server.order("group %s y 1000000000 test" % name) == str(number)
        assert server.order("stop") == "stopped"
        assert server.end() == (0, "")


def assert_operator_has_room(volume, serial):
    """Its next change has this serial."""
    assert volume.make_group("x.b") == serial
    assert [volume.expire(number) for number in range(1, 11)] == list(range(serial + 1, serial + 11))


def a_stream_that_fails_ends_an_import(volume):
    """What was filed before is durable and counted. The batch can't be read further, or a refusal not be written."""
    volume.make_group()
    texts = [with_lf(text_of(number)) for number in range(5)]
    shown, terminal = pty.openpty()
    tty.setraw(terminal)
    words = [volume.program, "import", volume.path]
    written = batch(texts[:2])
    os.write(shown, written)
    wait_until(lambda: unread(terminal) == len(written))
    process = subprocess.Popen(words, stdin=terminal, stdout=subprocess.PIPE, stderr=subprocess.PIPE, preexec_fn=end_with_parent)
    wait_until(lambda: unread(terminal) == 0)
    # a read of a terminal whose other end is closed fails
    os.close(shown)
    os.close(terminal)
    said, faults = (octets.decode() for octets in process.communicate(timeout=SECONDS))
    assert (process.returncode, said) == (1, counts(filed=2)), (process.returncode, said, faults)
    assert faults.startswith("newsd: octet %d: " % len(written)) and faults.count("\n") == 1, faults
    assert ids_of(volume) == [message_id(0), message_id(1)]
    with open("/dev/full", "w") as full:
        done = subprocess.run(words, input=batch([*texts[:4], b"x\n", texts[4]]), stdout=subprocess.PIPE, stderr=full, timeout=SECONDS)
    assert (done.returncode, done.stdout.decode()) == (1, counts(filed=2, here=2, causes=[NO_END])), done
    assert ids_of(volume) == [message_id(number) for number in range(4)]


def unread(terminal):
    """The octets that can be read from it."""
    return struct.unpack("i", fcntl.ioctl(terminal, termios.FIONREAD, b"\0" * 4))[0]


def what_can_not_be_imported_into_is_refused(volume):
    directory = os.path.dirname(volume.path)
    write(directory + "/text", b"no volume")
    given = batch([with_lf(text_of(1))])
    for path, said in (("/none", "E1 Fault: the file isn't there"), ("/text", NO_SUPERBLOCK)):
        done = volume.run("import", directory + path, given=given)
        assert (done.returncode, done.stdout, done.stderr.decode()) == (1, b"", "newsd: %s\n" % said), done
    volume.make_group()
    with volume.serve() as server, server.call() as caller:
        done = imported(volume, given)
        said = "newsd: E1 Fault: the volume is in use by process %d\n" % server.process.pid
        assert (done.returncode, done.stdout, done.stderr.decode()) == (1, b"", said), done
        assert caller.ask("STAT <1@a.example>") == "430 No such article"
    assert volume.run("import").returncode == 2
    assert volume.run("import", volume.path, "more").returncode == 2
    assert volume.dump() == ["spool 1", "1 group x.a y"]


def a_batch_comes_in_any_pieces(volume):
    volume.make_group()
    texts = [text_of(number, body="b" * (37 * number)) for number in range(40)]
    written = batch([with_lf(text) if number % 3 else text for number, text in enumerate(texts)])
    chance = seeded()
    with Import(volume) as running:
        while written:
            size = chance.choice((1, 2, 7, 100, 5000))
            running.feed(written[:size])
            written = written[size:]
        assert running.end() == (0, counts(filed=40), "")
    assert volume.export("--crlf") == batch(texts)


def a_device_that_fails_ends_an_import(volume):
    """What was filed before may be there, each article once. The same batch goes on afterwards."""
    volume.make_group()
    texts = [with_lf(text_of(number)) for number in range(3000)]
    written = batch(texts)
    with Import(volume) as running:
        running.feed(written[:len(written) // 2])
        resource.prlimit(running.process.pid, resource.RLIMIT_FSIZE, (4096, 4096))
        running.feed(written[len(written) // 2:])
        status, said, faults = running.end()
    assert status == 1 and faults.splitlines()[-1] == "newsd: E1 Fault: the file may not grow so large", (status, said, faults)
    there = ids_of(volume)
    assert there == [message_id(number) for number in range(len(there))]
    print("  %d are there after the fault" % len(there), flush=True)
    import_whole(volume, written, filed=len(texts) - len(there), here=len(there))
    assert volume.export() == written


def memory_that_is_refused_ends_an_import(volume):
    """The least memory in which it comes to its end, and what it leaves in less."""
    volume.make_group()
    texts = [with_lf(text_of(number)) for number in range(200)] + [with_lf(long_article("long", LARGEST)[:-3])]
    ends = []
    for megabytes in range(8, 160, 4):
        done = volume.run("import", volume.path, given=batch(texts), most_memory=megabytes << 20)
        ends.append((done.returncode, done.stderr.decode()))
        there = ids_of(volume)
        assert there == [message_id(it) for it in [*range(200), "long"][:len(there)]]
        if done.returncode == 0:
            break
    assert ends[-1] == (0, "") and all(end == (1, "newsd: E2 Memory\n") for end in ends[:-1]), ends
    print("  it needs %d MiB of addresses" % megabytes, flush=True)


def a_terminal_is_shown_how_far_an_import_is(volume):
    """A line each second, on standard error alone. It is fed until it has shown three lines."""
    volume.make_group()
    shown, terminal = pty.openpty()
    # a line of it is not wrapped
    fcntl.ioctl(terminal, termios.TIOCSWINSZ, struct.pack("HHHH", 24, 200, 0, 0))
    seen, fed = "", 0
    with Import(volume, faults=terminal) as running:
        os.close(terminal)
        start = time.monotonic()
        while len(shown_in(seen)) < 3:
            assert time.monotonic() - start < SECONDS, seen
            running.feed(batch([with_lf(text_of(fed))]))
            fed += 1
            time.sleep(0.05)
            seen += read_terminal(shown, 0)
        seconds = time.monotonic() - start
        status, said, _ = running.end()
    seen += read_terminal(shown, 1)
    os.close(shown)
    assert (status, said) == (0, counts(filed=fed)), (status, said)
    numbers = [PROGRESS.fullmatch(line) for line in shown_in(seen)]
    assert all(numbers) and len(numbers) <= seconds + 2, (seen, seconds)
    articles, octets = ([int(it.group(at)) for it in numbers] for at in (1, 2))
    assert articles == sorted(articles) and articles[-1] <= fed and octets == sorted(octets), seen


def shown_in(seen):
    """The lines of progress."""
    return [line for line in seen.split(ERASE) if line]


def read_terminal(shown, seconds):
    """What is written to a terminal, until nothing comes for this long, or its other end is closed."""
    seen = b""
    while select.select([shown], [], [], seconds)[0]:
        try:
            piece = os.read(shown, 65536)
        except OSError:
            break
        if not piece:
            break
        seen += piece
    return seen.decode()


class Import:
    """An import that runs, and is fed through a pipe."""

    def __init__(self, volume, faults=subprocess.PIPE):
        self.process = subprocess.Popen([volume.program, "import", volume.path], stdin=subprocess.PIPE, stdout=subprocess.PIPE,
                                        stderr=faults, restore_signals=False, preexec_fn=end_with_parent)

    def __enter__(self):
        return self

    def __exit__(self, *_):
        if self.process.poll() is None:
            self.process.kill()
            self.process.wait(SECONDS)

    def feed(self, octets):
        try:
            self.process.stdin.write(octets)
            self.process.stdin.flush()
        except BrokenPipeError:
            pass

    def end(self):
        """The status, and what it says on both streams."""
        try:
            self.process.stdin.close()
        except BrokenPipeError:
            pass
        self.process.stdin = None
        said, faults = self.process.communicate(timeout=SECONDS_OF_WORK)
        return self.process.returncode, said.decode(), (faults or b"").decode()


def fill(volume):
    """Articles of all kinds: with an id that the server gave, in several groups, of the largest size, in odd octets, and gone ones."""
    make_groups(volume)
    with volume.serve() as server, server.call() as caller:
        for number in range(1, 4):
            assert caller.post(article("gone%d" % number)) == "240 Article received"
        assert server.order("expire x.a 2").isdigit()
        assert caller.post(b"From: a@example.org\r\nNewsgroups: x.a\r\nSubject: named here\r\n\r\n...\r\n..x\r\nx\r\n.\r\n").startswith("240")
        for number, (groups, body) in enumerate((
            ("x.b,x.a", "..\r\n..."), ("x.a", ""), ("x.b", "\r\n\r\n"), ("x.a,x.none,x.b", "x" * 5000), ("x.a", "caf\u00e9 \u2603\t\x7f\x01"),
        ), 1):
            posted = article(number, body=body).replace(b"Newsgroups: x.a", b"Newsgroups: " + groups.encode())
            assert caller.post(posted) == "240 Article received", groups
        for name in ("transferred", "once more"[:4]):
            told = article(name).replace(b"Newsgroups: x.a", b"Newsgroups: x.none,x.c")
            assert caller.ask("IHAVE " + message_id(name))[:3] == "335"
            caller.send(told)
            assert caller.line() == "235 Article transferred"
        assert caller.ask("IHAVE " + message_id("largest"))[:3] == "335"
        caller.send(long_article("largest", LARGEST))
        assert caller.line() == "235 Article transferred"
        # it is in one group still
        assert caller.post(article("both").replace(b"Newsgroups: x.a", b"Newsgroups: x.b,x.a")) == "240 Article received"
        assert server.order("expire x.b 1").isdigit()


def make_groups(volume):
    for name, status in ((GROUP, "y"), ("x.b", "y"), (TRANSFERRED, "n")):
        volume.run("group", volume.path, name, status, "1000000000", "test").check_returncode()


def imported(volume, written):
    return volume.run("import", volume.path, given=written)


def import_whole(volume, written, **counted):
    """An import in which nothing is refused."""
    done = imported(volume, written)
    assert (done.returncode, done.stdout.decode(), done.stderr.decode()) == (0, counts(**counted), ""), done


def counts(filed=0, here=0, no_group=0, causes=()):
    """What an import says at its end. There is a cause for each article that was refused."""
    by_cause = ["  %d %s\n" % (causes.count(it), it) for it in CAUSES if it in causes]
    return "filed %d\nhere %d\nno group %d\nrefused %d\n" % (filed, here, no_group, len(causes)) + "".join(by_cause)


def ids_of(volume):
    """The ids of the articles of a volume, in the order of their serials."""
    lines = volume.dump()
    assert lines[0] == "spool %d" % (len(lines) - 1)
    return [line.split()[2] for line in lines[1:] if line.split()[1] == "article"]


def batch(texts):
    return b"".join(b"#! rnews %d\n%s" % (len(text), text) for text in texts)


def entries(written):
    """The texts of a batch."""
    found, at = [], 0
    while at < len(written):
        head = re.match(rb"#! rnews (\d+)\n", written[at:at + 30])
        at += head.end() + int(head.group(1))
        found.append(written[at - int(head.group(1)):at])
    assert at == len(written)
    return found


def text_of(number, body="hi"):
    """An article as it is stored."""
    return article(number, body=body)[:-len(b".\r\n")]


def with_lf(text):
    return text.replace(b"\r\n", b"\n")


def stored_text(caller, name):
    """The text of an article, as it is stored."""
    reply = caller.ask("ARTICLE " + name)
    assert reply.startswith("220 "), reply
    lines = []
    while not lines or lines[-1] != b".\r\n":
        lines.append(caller.file.readline())
    return b"".join(line[1:] if line.startswith(b".") else line for line in lines[:-1])


def seeded():
    seed = random.randrange(1 << 32)
    print("  seed", seed, flush=True)
    return random.Random(seed)


def write(path, content):
    with open(path, "wb") as file:
        file.write(content)


TESTS = [
    articles_are_exported_as_a_batch,
    rnews_reads_what_was_exported,
    another_host_imports_what_was_exported,
    an_import_that_is_killed_goes_on,
    each_article_has_an_outcome,
    what_is_no_batch_ends_an_import,
    an_article_that_is_too_long_is_passed_over,
    a_full_volume_ends_an_import,
    an_import_leaves_a_part_to_the_operator,
    short_articles_leave_blocks_to_the_operator,
    a_stream_that_fails_ends_an_import,
    what_can_not_be_imported_into_is_refused,
    a_batch_comes_in_any_pieces,
    a_device_that_fails_ends_an_import,
    memory_that_is_refused_ends_an_import,
    a_terminal_is_shown_how_far_an_import_is,
]


if __name__ == "__main__":
    sys.exit(main(TESTS))
