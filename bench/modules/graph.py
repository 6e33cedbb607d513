"""The crates of the repository and what each of them uses, as crates.txt says."""
import os
import shutil


class Graph:
    def __init__(self, top):
        self.top, self.lines, self.uses = top, {}, {}
        with open(os.path.join(top, "crates.txt")) as file:
            for line in file:
                names, is_crate, libraries = line.partition("#")[0].partition(":")
                if is_crate:
                    name = names.split()[0]
                    self.lines[name], self.uses[name] = line, libraries.split()

    def below(self, names):
        """These crates and all that they stand on. The libraries of the toolchain are left out."""
        found, left = set(), list(names)
        while left:
            name = left.pop()
            if name in self.uses and name not in found:
                found.add(name)
                left += self.uses[name]
        return [it for it in self.lines if it in found]

    def lowest_first(self):
        """All crates, each after those that it uses, and else as the file has them."""
        found = []
        while len(found) < len(self.lines):
            ready = [it for it in self.lines if it not in found and all(used in found for used in self.uses[it] if used in self.uses)]
            found.append(ready[0])
        return found

    def copy(self, names, to, without):
        """Copies these crates and all that they stand on, as a repository of their own. Files and folders of these names are left out."""
        below = self.below(names)
        with open(os.path.join(to, "crates.txt"), "w") as file:
            file.writelines(self.lines[it] for it in below)
        shutil.copy(os.path.join(self.top, "HANDLES"), to)
        for name in below:
            folder = os.path.join("crates", name)
            shutil.copytree(os.path.join(self.top, folder), os.path.join(to, folder), ignore=shutil.ignore_patterns(*without))
