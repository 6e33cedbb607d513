"""The definitions of all crates, and where a name of a module or a path of Rust leads."""
import os
import re

from graph import Graph
from sources import Source
from specs import KIT, Specs

# the values that an argument has in a clause, and the list that a vector holds
VALUES = {"now", "old", "new", "items"}
KINDS = (("specs", ".antt", Specs), ("src", ".rt", Source))


class Tree:
    """All crates of the repository at `top`. `fields` has the names of all fields, `faults` what was found wrong, with its place."""

    def __init__(self, top):
        self.crates, self.graph = os.path.join(top, "crates"), Graph(top)
        self.files, self.faults, self.fields = {}, set(), set(VALUES)
        for crate in self.graph.lines:
            for part, ending, kind in KINDS:
                self.files.update((path, kind(self, path)) for path in self.paths(os.path.join(crate, part), ending))
        for source in (it for it in self.files.values() if isinstance(it, Source)):
            source.add_views()

    def paths(self, folder, ending):
        for below, _, names in os.walk(os.path.join(self.crates, folder)):
            yield from (os.path.relpath(os.path.join(below, name), self.crates) for name in sorted(names) if name.endswith(ending))

    def find(self, module, name):
        """What a module has under a name: a definition, `KIT` where it is the kit's, or none."""
        parts = module.split(".")
        if parts[0] != "Rattle" or parts[1] not in self.graph.uses:
            return KIT
        if parts[2] == "proofs":
            return self.lemma(parts, name)
        if parts[2:4] == ["specs", "declared"]:
            return self.declared(parts[1], parts[4:], name)
        file, data = self.specs(parts)
        if data:
            return data if name in data.constructors else None
        if file is None or name in file.owners:
            return file and file.owners[name]
        return self.find(*file.handed_on[name]) if name in file.handed_on else None

    def lemma(self, parts, name):
        """`KIT` where proofs/ has a lemma of this name: what is proved needs no more belief than what the kit has."""
        path = os.path.join(self.crates, *parts[1:]) + ".antt"
        if not os.path.isfile(path):
            return None
        with open(path) as file:
            return KIT if re.search(r"^ *(?:\w+ )*%s :" % re.escape(name), file.read(), re.MULTILINE) else None

    def specs(self, parts):
        """The file that a module is, and the data type in it where the module is made of its constructors."""
        file = self.files.get("/".join(parts[1:]) + ".antt")
        if file:
            return file, None
        above = self.files.get("/".join(parts[1:-1]) + ".antt")
        if above and parts[-1] in above.owners:
            return above, above.owners[parts[-1]]
        root = self.files.get("/".join([*parts[1:3], "Lib.antt"]))
        again = root and root.modules.get(parts[3])
        return self.specs(again.split(".")) if again else (None, None)

    def declared(self, crate, path, name):
        """A type of src/ as specs/ have it, one of its variants, what it has within, or a constant."""
        if path[-1] == "TheConstants":
            return self.constant(crate, path[:-1], name)
        *modules, owner = path[:-1] if path[-1] in ("TheVariants", "TheInside") else path
        source = self.source(crate, modules)
        found = source and source.owners.get(owner)
        if found and path[-1] == "TheVariants":
            return found if name in found.constructors else None
        return found if name == ("Inside" if path[-1] == "TheInside" else owner) else None

    def constant(self, crate, modules, name):
        """`KIT` where src/ has a constant of this name: its value is a literal, so nothing hangs on it."""
        source = self.source(crate, modules)
        const = re.compile(r"(?:pub(?:\(crate\))? )?const %s:" % re.escape(name))
        return KIT if source and any(const.match(line) for line in source.lines) else None

    def source(self, crate, modules):
        """The file of a module of Rust, or none."""
        path = "/".join([crate, "src", *modules])
        names = [path + ".rt", path + "/mod.rt"] if modules else [path + "/lib.rt", path + "/main.rt"]
        return next((self.files[it] for it in names if it in self.files), None)

    def item(self, file, path):
        """The type that a path of Rust means in a file: a definition, `KIT`, or none."""
        own = file.path.split("/")[0]
        first, *rest = path
        if self.source(own, [first]):
            crate, rest = own, path
        elif first in ("crate", "super"):
            crate = own
        elif first in self.graph.uses[own] and first in self.graph.uses:
            crate = first
        else:
            return KIT
        *modules, name = rest or [""]
        source = self.source(crate, modules)
        return source and source.type_named(name)

    def place_in_crate(self, file):
        """Where a file stands among those of its folder: as `specs/Lib.antt` or the root of `src/` names them."""
        crate, part, *rest = file.path.split("/")
        roots = [self.files.get("/".join([crate, part, name])) for name in ("Lib.antt", "lib.rt", "main.rt")]
        lines = next(it.lines for it in roots if it)
        mod = re.compile(r"(?:pub )?mod %s;?$" % re.escape(rest[0].partition(".")[0]))
        return next((at for at, line in enumerate(lines) if mod.match(line)), -1), file.path
