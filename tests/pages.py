#!/usr/bin/env python3
"""Checks of the pages: links, named files, the columns of lines, pictures, the headings of crates, the names of contracts, of crates and of
code, what threads share, counts, the version, and the list of what has to be believed. Then each check is shown a page with something false
in it, and has to find that. They need no program.
pages.py [NEWSD [NAME..]]"""
import ast
import functools
import os
import re
import subprocess
import sys
import time

TOP = os.path.dirname(os.path.dirname(os.path.abspath(__file__)))
sys.dont_write_bytecode = True
sys.path.insert(0, os.path.join(TOP, "bench", "modules"))
from edits import functions_of  # noqa: E402
from graph import Graph  # noqa: E402

COLUMNS = 140
SECONDS_OF_A_CHECK = 300
# what builds make, and what isn't of the repository
APART = {".git", "out"}
LINK = re.compile(r"\[[^\]]*\]\(([^)\s]+)\)")
WEB = re.compile(r"[a-z]+:")
HEADING = re.compile(r"^#+ (.*)$", re.MULTILINE)
# a path: words that slashes part, and after it nothing that makes it a pattern, as in `crates/bench_..` and `crates/*/must-fail`
PATH = re.compile(r"(?<![\w/.*<$-])((?:[\w.-]+/)+[\w.-]*\w)(?![\w*/<]|\.\.)")
NAME = re.compile(r"(?<![\w/.*<$-])([A-Za-z_][\w-]*\.(?:md|antt|rt|py|edit|svg|tsv|txt|1))(?![\w*/<])")
# a component of a path that stands for others, as in crates/CRATE/must-fail
STAND_IN = re.compile(r"[A-Z][A-Z_]*")
FOLDERS = ("bin", "bench", "crates", "docs", "tests", ".ci")
# the heading of the promises of a crate, or of several
OF_CRATES = re.compile(r"### ([a-z_]+(?:, [a-z_]+)*)")


def files():
    """All files of the repository, by their paths from the top."""
    for folder, folders, names in os.walk(TOP):
        folders[:] = [it for it in folders if it not in APART]
        yield from (os.path.relpath(os.path.join(folder, it), TOP) for it in names)


FILES = set(files())
FOLDERS_AND_FILES = FILES | {file[:at] for file in FILES for at in range(len(file)) if file[at] == "/"}
CRATES = {it.split("/")[1] for it in FILES if it.startswith("crates/")}
NAMES = {os.path.basename(it) for it in FILES}
PAGES = sorted(it for it in FILES if it.endswith(".md") and not it.startswith("crates/"))


# pages with something false in them, which the checks read in place of the files
PLANTED = {}


def read(page):
    if page in PLANTED:
        return PLANTED[page]
    with open(os.path.join(TOP, page)) as file:
        return file.read()


def without_code(text):
    return re.sub(r"^```.*?^```", "", text, flags=re.MULTILINE | re.DOTALL)


def anchors(page):
    """What a link may name in a page: its headings in small letters, with blanks as -, and without other signs."""
    return {re.sub(r"[^\w -]", "", it.lower()).strip().replace(" ", "-") for it in HEADING.findall(without_code(read(page)))}


# each test gives what is wrong
def each_link_leads_somewhere():
    for page in PAGES:
        for link in LINK.findall(without_code(read(page))):
            if WEB.match(link):
                continue
            file, _, anchor = link.partition("#")
            target = os.path.normpath(os.path.join(os.path.dirname(page), file)) if file else page
            if target not in FOLDERS_AND_FILES:
                yield "%s: nothing stands at %s" % (page, link)
            elif anchor and anchor not in anchors(target):
                yield "%s: no heading for %s" % (page, link)


def is_there(path):
    """Whether a path is there, or is none of the repository's. It begins at the top, at the crates or, of a file, within its crate."""
    first, *others = path.split("/")
    if "out" in others or any(STAND_IN.fullmatch(it) for it in others):
        return True
    if first in FOLDERS:
        return path in FOLDERS_AND_FILES
    if first in CRATES:
        return "crates/" + path in FOLDERS_AND_FILES
    return not NAME.fullmatch(others[-1]) or any(it.endswith("/" + path) for it in FILES)


def each_named_file_is_there():
    for page in [*PAGES, "docs/newsd.1"]:
        # links are another check's
        text = LINK.sub("", read(page))
        for path in PATH.findall(text):
            if not is_there(path):
                yield "%s: %s isn't there" % (page, path)
        for name in NAME.findall(text):
            if name not in NAMES:
                yield "%s: no file has the name %s" % (page, name)


def no_line_is_too_long():
    for page in PAGES:
        for number, line in enumerate(read(page).splitlines(), 1):
            if not line.startswith("|") and len(line) > COLUMNS:
                yield "%s:%d has %d columns" % (page, number, len(line))


def faults_by(script):
    """What a script says with `--check`, if its status isn't 0."""
    done = subprocess.run([sys.executable, "-B", os.path.join(TOP, script), "--check"], capture_output=True, text=True, timeout=SECONDS_OF_A_CHECK)
    if done.returncode:
        yield from (script + ": " + it for it in (done.stdout + done.stderr).strip().splitlines())


def pictures_are_what_their_scripts_draw():
    for script in ("bin/pictures", "bench/plots"):
        yield from faults_by(script)


def theorem_lists_what_has_to_be_believed():
    yield from faults_by("bin/believed")


def crates_of_layers():
    """The crates of crates.txt in their order, each with its layer."""
    layer = ""
    for line in read("crates.txt").splitlines():
        if line.startswith("#"):
            layer = line[1:].strip()
        elif ":" in line:
            yield layer, line.partition(":")[0].split()[0]


def headings_of_promises():
    """The crates of the headings of PROMISES.md in their order, each with the heading above it, but for the capital."""
    layer = ""
    for line in read("docs/PROMISES.md").splitlines():
        if line.startswith("## "):
            layer = line[3].lower() + line[4:]
        heading = OF_CRATES.fullmatch(line)
        if heading:
            yield from ((layer, crate) for crate in heading[1].split(", "))


def promises_go_by_the_layers():
    crates, headings = list(crates_of_layers()), list(headings_of_promises())
    for layer, crate in headings:
        if (layer, crate) not in crates:
            yield "docs/PROMISES.md: crates.txt has no %s among %s" % (crate, layer)
    if [it for it in crates if it in headings] != [it for it in headings if it in crates]:
        yield "docs/PROMISES.md: the headings aren't in the order of crates.txt"
    # the words of the picture are those of the crates of the program
    program = [line.partition("\t")[0] for line in read("docs/pictures/crates.tsv").splitlines()]
    for crate in sorted(set(program) - {crate for _, crate in headings}):
        yield "docs/PROMISES.md: no heading for %s" % crate


QUOTED = re.compile(r"`([^`]+)`")
# a name of code: of a function, a method, a clause, a type or a definition
OF_CODE = re.compile(r"(?:[A-Za-z_]\w*::)*[A-Za-z_][\w-]*")
CLAUSE = re.compile(r"^ *(?:requires|ensures|ghost) (\w+)(?: \{|: | = )", re.MULTILINE)
TYPE = re.compile(r"^(?:pub(?:\([a-z]+\))? )?(?:struct|enum|trait|type|const) (\w+)", re.MULTILINE)
DEFINITION = re.compile(r"^(?:(?:pub|abbrev|opaque|unfoldable|record|data) )+([^\s:({]+)", re.MULTILINE)
WORD = re.compile(r"\w+")


@functools.lru_cache(maxsize=None)
def texts_of(crate, folder, ending):
    """The files of a folder of a crate, each with its text."""
    paths = []
    for at, _, names in os.walk(os.path.join(TOP, "crates", crate, folder)):
        paths += [os.path.relpath(os.path.join(at, it), TOP) for it in names if it.endswith(ending)]
    return [(it, read(it)) for it in sorted(paths)]


@functools.lru_cache(maxsize=None)
def names_in(crate):
    """What a contract of a crate may be called: its functions, each also behind its type, its clauses, types and definitions."""
    found = set()
    for path, text in texts_of(crate, "src", ".rt"):
        found.update(CLAUSE.findall(text), TYPE.findall(text))
        for function in functions_of(path, text):
            found.add(function.name)
            found.update("%s::%s" % (owner, function.name) for owner in TYPE_NAME.findall(function.owner or ""))
    for _, text in texts_of(crate, "specs", ".antt") + texts_of(crate, "proofs", ".antt"):
        found.update(DEFINITION.findall(text))
    return found


# `WCacheDisk` is the trait `Disk` of `WCache`
TYPE_NAME = re.compile(r"\w+")


# a crate that fulfils a trait has its calls
OF_TRAIT = re.compile(r"[Tt]he trait `(\w+)`")


@functools.lru_cache(maxsize=None)
def names_of_trait(name):
    return set().union({name}, *(names_in(it) for it in CRATES if any("\npub trait %s" % name in text for _, text in texts_of(it, "src", ".rt"))))


def cells_of(line):
    return [it.strip() for it in re.split(r" ?\| ?", line.strip())[1:-1]]


def lists_of_promises():
    """For each heading of crates the crates, and the items below it: the line of each, whether it stands under another, and its text. A
    line that is of none has no text."""
    found, items = [], None
    for number, line in enumerate(read("docs/PROMISES.md").splitlines(), 1):
        heading = OF_CRATES.fullmatch(line)
        if heading:
            items = []
            found.append((heading[1], items))
        elif line.startswith("#"):
            items = None
        elif items is not None and line.lstrip().startswith("- "):
            items.append((number, line.startswith(" "), line.strip()[2:]))
        elif items and line.startswith("  "):
            items[-1] = (*items[-1][:2], "%s %s" % (items[-1][2], line.strip()))
        elif items is not None and line:
            items.append((number, False, ""))
    return found


LABEL = re.compile(r"(Only tested|Neither|Contracts): .")
# contracts with a colon behind them, above the promises that they prove
LEAD = re.compile(r"(?:(?:The trait |Within the crate )?`|.*, by `).*:")


def contracts_of(text):
    """The contracts that an item names, or nothing."""
    label = LABEL.match(text)
    if label:
        return text.partition(": ")[2] if label[1] == "Contracts" else ""
    if text.endswith(":"):
        return text.rpartition(", by ")[2] if LEAD.fullmatch(text) else ""
    return text.partition(" — ")[2]


def contracts_are_of_their_crates():
    """Each contract that stands behind a dash, before a colon or in a line Contracts. A promise has one of these, but for safety alone."""
    for row, items in lists_of_promises():
        crates, is_led, owing = [it for it in row.split(", ") if it in CRATES], False, []
        has_any = any(contracts_of(text) for _, _, text in items)
        for number, is_under, text in items:
            contracts, label = contracts_of(text), LABEL.match(text)
            if not text:
                yield "docs/PROMISES.md:%d: this line of %s is of no item" % (number, row)
            known = set().union(*map(names_in, crates), *map(names_of_trait, OF_TRAIT.findall(contracts)))
            for name in QUOTED.findall(contracts):
                if "/" not in name and name not in known:
                    yield "docs/PROMISES.md:%d: %s has nothing that is called %s" % (number, row, name)
            if not is_under:
                is_led = text.endswith(":") and bool(contracts)
            if label and contracts:
                owing = []
            elif not label and not contracts and not is_led and not text.endswith(":") and not text.startswith("Safety"):
                owing.append(number)
        if not items or owing and (has_any or not items[0][2].startswith("Safety")):
            yield "docs/PROMISES.md:%d: no contract stands by this promise of %s" % ((owing or [0])[0], row)


# where a page has the name of a crate: after a name of code in brackets, after the word, and as the first or second cell of a row
NAMED_CRATES = [re.compile(r"`\)? \(([a-z_]+)\)"), re.compile(r"`[\w:]+` in ([a-z_]+)\)"), re.compile(r"(?<!within the )\bcrates? `([a-z_]+)`"),
                re.compile(r"`((?:test|bench)_[a-z_]+)`")]
# the crates of a step in the picture of a post
OF_STEP = re.compile(r'<text [^>]*font-size="11.5"[^>]*>([a-z_]+(?:, [a-z_]+)*)</text>')


def each_named_crate_is_there():
    for page in PAGES:
        for number, line in enumerate(read(page).splitlines(), 1):
            for name in {it for pattern in NAMED_CRATES for it in pattern.findall(line)} - CRATES:
                if name not in {word for crate in CRATES if crate.startswith("test_") for word in names_in(crate)}:
                    yield "%s:%d: no crate has the name %s" % (page, number, name)
    for number, line in enumerate(read("docs/ARCHITECTURE.md").splitlines(), 1):
        cells = cells_of(line) if line.startswith("| ") and "/src/" in line + "/specs/" else []
        for name in re.split(r"[,;] ", cells[1]) if len(cells) == 3 and "`" not in cells[1] else ():
            if name not in CRATES and name != "Crate":
                yield "docs/ARCHITECTURE.md:%d: no crate has the name %s" % (number, name)
    for names in OF_STEP.findall(read("docs/pictures/post.svg")):
        for name in set(names.split(", ")) - CRATES:
            yield "docs/pictures/post.svg: no crate has the name %s" % name


# a run of lines that are comments of a file or of an item
COMMENT = re.compile(r"(?:^ *//[/!].*\n)+", re.MULTILINE)
OF_COMMENT = re.compile(r"\bcrates? `(\w+)`")


def each_crate_of_a_comment_is_there():
    for path in sorted(it for it in FILES if re.fullmatch(r"crates/\w+/src/.*\.rt", it)):
        for comment in COMMENT.findall(read(path)):
            for name in OF_COMMENT.findall(re.sub(r"\s*\n *//[/!] ?", " ", comment)):
                if name not in CRATES:
                    yield "%s: no crate has the name %s" % (path, name)


# a field that threads share: a lock, a flag, a count, a bell or an end of a channel
SHARED = re.compile(r"\b(?:Mutex|RwLock|Condvar|OnceLock|Atomic[A-Z]\w+|Sender|Receiver|Parker|Bell)\b")
SHARED_WORDS = re.compile(r"Table<")
STRUCT = re.compile(r"^(?:pub(?:\([a-z]+\))? )?struct (\w+)[^\n;]*\{\n(.*?)^\}", re.MULTILINE | re.DOTALL)
FIELD = re.compile(r"^ {4}(?:pub(?:\([a-z]+\))? )?(\w+): ([^\n]*(?:\n {8}[^\n]*)*)", re.MULTILINE)
# a heading with fields, each behind its type, and at its end the crates
OF_FIELDS = re.compile(r"^### .*?`\w+::\w+`.*\(([a-z_]+(?:, [a-z_]+)*)\)$", re.MULTILINE)


@functools.lru_cache(maxsize=None)
def shared_fields():
    """The fields of the program's types that threads share, each with its crate."""
    found = set()
    for crate in [*Graph(TOP).below(["newsd"]), "newsd"]:
        for _, text in texts_of(crate, "src", ".rt"):
            is_of_words = "use atomic_table::Table;" in text
            for struct, fields in STRUCT.findall(text):
                found.update((crate, "%s::%s" % (struct, name)) for name, kind in FIELD.findall(fields)
                             if SHARED.search(kind) or is_of_words and SHARED_WORDS.match(kind))
    return found


def what_threads_share_has_headings():
    """Each such field is named in a heading of THREADS.md, with its crate, and each that is named there is one."""
    named, crates_of = set(), {}
    for heading in OF_FIELDS.finditer(read("docs/THREADS.md")):
        for field in QUOTED.findall(heading[0]):
            crates_of.setdefault(field, set()).update(heading[1].split(", "))
        named.update((crate, field) for crate in heading[1].split(", ") for field in QUOTED.findall(heading[0]))
    for crate, field in sorted(shared_fields() - named):
        yield "docs/THREADS.md: no heading for %s (%s)" % (field, crate)
    for field, crates in sorted(crates_of.items()):
        if not any((crate, field) in shared_fields() for crate in crates):
            yield "docs/THREADS.md: %s have no %s that threads share" % (", ".join(sorted(crates)), field)


EDITS_OF = re.compile(r"\| ([a-z_]+) \| ((?:`[\w]+\.\w+`(?:, )?)+) \|")


def each_named_edit_is_there():
    for number, line in enumerate(read("docs/THEOREM.md").splitlines(), 1):
        row = EDITS_OF.match(line)
        for name in QUOTED.findall(row[2]) if row else ():
            if "crates/%s/must-fail/%s.edit" % (row[1], name) not in FILES:
                yield "docs/THEOREM.md:%d: %s has no edit %s" % (number, row[1], name)


# names of the toolchain's libraries and of systemd, of which the pages say why no code has them
OF_OTHERS = {"lines_with_terminator", "trim_with", "split_str", "EXTEND_TIMEOUT_USEC"}


@functools.lru_cache(maxsize=None)
def words_of_code():
    """The words of all that is no page."""
    endings = (".rt", ".antt", ".py", ".c", ".service", ".socket", ".conf", ".txt", ".tsv", "stdin", "stdout")
    is_code = [it for it in FILES if it.endswith(endings) or it.startswith(("bin/", "bench/")) and "." not in os.path.basename(it)]
    names = {word for it in FILES for word in os.path.basename(it).split(".")}
    return names.union(OF_OTHERS, *(WORD.findall(read(it)) for it in sorted(is_code) if it != "tests/pages.py"))


def each_name_of_code_is_there():
    """A name with _ or :: in it is one of the code's. That of an edit begins with the name of what it changes."""
    known = words_of_code()
    for page in PAGES:
        for number, line in enumerate(without_code(read(page)).splitlines(), 1):
            for name in QUOTED.findall(line):
                if OF_CODE.fullmatch(name) and ("_" in name or "::" in name):
                    for word in set(re.split(r"::|-", name)) - known:
                        yield "%s:%d: nothing has the name %s" % (page, number, word)


@functools.lru_cache(maxsize=None)
def system_tests():
    """How many tests the files of tests/ have: the elements of their lists, and the scripts of tests/refusals.py."""
    count = 0
    for path in (it for it in FILES if re.fullmatch(r"tests/\w+\.py", it)):
        for part in (it for it in ast.parse(read(path)).body if isinstance(it, ast.Assign) and isinstance(it.targets[0], ast.Name)):
            name, value = part.targets[0].id, part.value
            if name in ("TESTS", "LONG_ONES", "CHECKS") and isinstance(value, ast.List):
                count += sum(not isinstance(it, ast.Starred) for it in value.elts)
            elif isinstance(value, ast.Dict) and (name == "TESTS" or (path, name) == ("tests/refusals.py", "SCRIPTS")):
                count += sum(it is not None for it in value.keys)
    return count


def rows_of(path, beginning="== "):
    return sum(line.startswith(beginning) for line in read(path).splitlines())


def damages(is_sound):
    """The rows of damaged file systems whose last check says so, or that they are sound."""
    rows = re.split(r"^== ", read("crates/test_files/stdout"), flags=re.MULTILINE)
    return sum(it.startswith("damage: ") and (it.split()[-1] == "sound") == is_sound for it in rows)


def edits():
    return sum(it.endswith(".edit") for it in FILES)


def product():
    return len(Graph(TOP).below(["newsd"]))


def room_of_an_overview():
    return int(re.search(r"OVERVIEW_ROOM: u32 = ([\d_]+);", read("crates/volume_states/src/state.rt"))[1])


# a page, where it has a count, and what the count has to be
COUNTS = [
    ("docs/PROMISES.md", r"(\d+) scripts and lists of words", lambda: rows_of("crates/test_program/stdin")),
    ("docs/PROMISES.md", r"(\d+) damaged volumes and", lambda: damages(False)),
    ("docs/PROMISES.md", r"damaged volumes and (\d+) sound ones", lambda: damages(True)),
    ("docs/GATE.md", r"the program and the (\d+) crates", lambda: product() - 1),
    ("docs/GATE.md", r"the (\d+) edits of `must-fail/`", lambda: sum("/must-fail/" in it for it in FILES)),
    ("docs/FORMATS.md", r"in per cent of ([\d,]+)", lambda: room_of_an_overview()),
    ("docs/FORMATS.md", r'"room":(\d+)', lambda: room_of_an_overview()),
    ("docs/newsd.1", r"in per cent of (\d+)", lambda: room_of_an_overview()),
    ("CHANGELOG.md", r"in per cent of ([\d,]+)", lambda: room_of_an_overview()),
    ("README.md", r"([\d,]+) system tests", lambda: system_tests()),
    ("README.md", r"([\d,]+) wrong bodies", lambda: edits()),
]


def counts_are_those_of_the_tests():
    for page, pattern, count in COUNTS:
        found = re.findall(pattern, read(page))
        if [int(it.replace(",", "")) for it in found] != [count()]:
            yield "%s: %s: it says %s, and there are %d" % (page, pattern, ", ".join(found) or "nothing", count())


VERSION = re.compile(r'^pub const VERSION: &str = "(.*)";$', re.MULTILINE)
# the first heading with a version
RELEASE = re.compile(r"^## \[(.*?)\](?: - (\d{4}-\d\d-\d\d))?$", re.MULTILINE)


def each_file_of_tests_is_run():
    """Each file that the table of tests/README.md names stands in tests/run."""
    played = re.findall(r'"(\w+)"', read("tests/run"))
    for name in re.findall(r"^\| `tests/(\w+)\.py`", read("tests/README.md"), re.M):
        if name not in played:
            yield "tests/run: it doesn't play tests/%s.py, which tests/README.md names" % name


def the_changelog_has_the_version():
    """Between releases the version ends in -dev, and the first heading is [Unreleased]."""
    version, (heading, date) = VERSION.findall(read("crates/program_command_table/src/syntax.rt"))[0], RELEASE.findall(read("CHANGELOG.md"))[0]
    wanted = ("Unreleased", "") if version.endswith("-dev") else (version, date or "a date")
    if (heading, date) != wanted:
        yield "CHANGELOG.md: the version is %s, and the first heading [%s] %s" % (version, heading, date)


CHECKS = [each_link_leads_somewhere, each_named_file_is_there, no_line_is_too_long, pictures_are_what_their_scripts_draw,
          theorem_lists_what_has_to_be_believed, promises_go_by_the_layers, contracts_are_of_their_crates, each_named_crate_is_there,
          each_crate_of_a_comment_is_there, each_named_edit_is_there, what_threads_share_has_headings,
          each_name_of_code_is_there, counts_are_those_of_the_tests,
          each_file_of_tests_is_run, the_changelog_has_the_version]
# a check, a page, a text that stands there once, and something false in its place
FALSE = [
    (each_link_leads_somewhere, "README.md", "](docs/GLOSSARY.md)", "](docs/GLOSSARIES.md)"),
    (each_named_file_is_there, "docs/THEOREM.md", "`synchrony/specs/Service.antt`", "`synchrony/specs/Services.antt`"),
    (no_line_is_too_long, "docs/GATE.md", "# The gate\n", "# The gate\n" + 141 * "x" + "\n"),
    (promises_go_by_the_layers, "docs/PROMISES.md", "\n### disk_memory\n", "\n### memdiskette\n"),
    (promises_go_by_the_layers, "docs/PROMISES.md", "\n### fs_check\n", "\n### fs_inodes\n"),
    (contracts_are_of_their_crates, "docs/PROMISES.md", "`MemDisk::new`", "`MemDisk::now`"),
    (contracts_are_of_their_crates, "docs/PROMISES.md", "`is_group_name`", "`is_a_group_name`"),
    (contracts_are_of_their_crates, "docs/PROMISES.md", "`FileDisk::open`", "`FileError::open`"),
    (contracts_are_of_their_crates, "docs/PROMISES.md", " — `husk`\n", "\n"),
    (contracts_are_of_their_crates, "docs/PROMISES.md", " — `husk`\n", " — `hulk`\n"),
    (contracts_are_of_their_crates, "docs/PROMISES.md", ", by `external_synchrony`:", ", by `internal_synchrony`:"),
    (contracts_are_of_their_crates, "docs/PROMISES.md", "\n- `Journal::open` (`ok`, ", "\n- Of `Journal::open` (`ok`, "),
    (contracts_are_of_their_crates, "docs/PROMISES.md", "\n- Contracts: `Manager::at`", "\n- Contract: `Manager::at`"),
    (contracts_are_of_their_crates, "docs/PROMISES.md", "\n- No call after `new` answers E2\n", "\nNo call after `new` answers E2\n"),
    (each_named_crate_is_there, "docs/THEOREM.md", "`World::step` (world)", "`World::step` (worlds)"),
    (each_named_crate_is_there, "docs/ARCHITECTURE.md", "| disk_file | `disk_file/src/lib.rt`", "| filedisc | `disk_file/src/lib.rt`"),
    (each_named_crate_is_there, "docs/pictures/post.svg", "kernel_seats, kernel_outbox<", "kernel_seat, kernel_outbox<"),
    (each_named_crate_is_there, "tests/README.md", "| `test_model` |", "| `test_models` |"),
    (each_crate_of_a_comment_is_there, "crates/text_husks/src/lib.rt", "crate `model_renewed`", "crate `renewed`"),
    (each_named_edit_is_there, "docs/THEOREM.md", "`happen.told_does_nothing`", "`happen.told_does_something`"),
    (what_threads_share_has_headings, "docs/THREADS.md", "### `Desk::is_missed`", "### `Desk::is_missing`"),
    (what_threads_share_has_headings, "docs/THREADS.md", "`Pace::times` (server_attending)", "`Pace::times` (server_pace)"),
    (what_threads_share_has_headings, "docs/THREADS.md", "`Mark::table`", "the table"),
    (what_threads_share_has_headings, "docs/THREADS.md", "`Turns::counted`, `Turns::moved`", "`Turns::counted`"),
    (each_name_of_code_is_there, "docs/ARCHITECTURE.md", "`write_home`", "`write_to_home`"),
    (counts_are_those_of_the_tests, "docs/PROMISES.md", " scripts and lists of words", "0 scripts and lists of words"),
    (counts_are_those_of_the_tests, "docs/PROMISES.md", " damaged volumes and", "0 damaged volumes and"),
    (counts_are_those_of_the_tests, "docs/PROMISES.md", " sound ones", "0 sound ones"),
    (counts_are_those_of_the_tests, "docs/newsd.1", "in per cent of ", "in per cent of 1"),
    (counts_are_those_of_the_tests, "README.md", " system tests", "0 system tests"),
    (each_file_of_tests_is_run, "tests/run", '"own_files", ', ""),
    (the_changelog_has_the_version, "CHANGELOG.md", "\n## [", "\n## [1"),
]


def what_is_false_is_found():
    """Each of the false texts, in its page, has its check say more than it says of the page as it is."""
    said = {check: list(check()) for check in {row[0] for row in FALSE}}
    for check, page, old, new in FALSE:
        text, before = read(page), said[check]
        if old not in text:
            yield "tests/pages.py: %s doesn't have %r" % (page, old)
            continue
        # of several places the first one
        PLANTED[page] = text.replace(old, new, 1)
        try:
            if set(check()) <= set(before):
                yield "tests/pages.py: %s doesn't find %r in %s" % (check.__name__, new, page)
        finally:
            del PLANTED[page]


TESTS = [*CHECKS, what_is_false_is_found]


def main(tests):
    """Plays those of these tests that the command line names, or all. A test gives what is wrong."""
    ends = {"ok": 0, "FAILED": 0}
    for test in tests:
        if sys.argv[2:] and test.__name__ not in sys.argv[2:]:
            continue
        start, faults = time.monotonic(), list(test())
        for fault in faults:
            print("  " + fault)
        end = "FAILED" if faults else "ok"
        ends[end] += 1
        print("%s ... %s (%.1f s)" % (test.__name__, end, time.monotonic() - start), flush=True)
    print("%d passed, %d failed, 0 skipped" % tuple(ends.values()))
    return 1 if ends["FAILED"] else 0


if __name__ == "__main__":
    sys.exit(main(TESTS))
