"""Takes the place of the module by which the toolchain's command rt builds crates, for tests/builds.

It notes what it is asked for in the file $NOTED, and a library that is to be built before one that its line in crates.txt names. It
fails for the crate called $FAILS. It takes a moment, so that two that could run at a time do.
"""

import os
import time

RATTLE = "rattle"


class Crate:
    def __init__(self, top, name, deps):
        self.name, self.deps, self.folder = name, deps, f"{top}/crates/{name}"
        self.rlib = f"{self.folder}/out/rlib/{name}.rlib"

    def below(self):
        found = []
        for dep in self.deps:
            found += [it for it in [*dep.below(), dep] if it not in found]
        return found

    def count(self, pattern):
        return len(self.name)

    def source(self):
        with open(f"{self.folder}/src/lib.rt", encoding="utf-8") as file:
            return file.read()

    def stamp(self):
        return "".join(it.source() for it in [*self.below(), self])

    def is_built(self):
        try:
            with open(f"{self.folder}/out/rlib/stamp", encoding="utf-8") as file:
                return file.read() == self.stamp()
        except OSError:
            return False

    def has_kept(self):
        return os.path.isdir(f"{self.folder}/out/incremental")

    def words(self, flags, keeps):
        return flags

    def note(self, verb):
        time.sleep(0.05)
        told = [f"{self.name} lacks {it.name}" for it in self.deps if not it.is_built()] + [f"{verb} {self.name}"]
        with open(os.environ["NOTED"], "a", encoding="utf-8") as file:
            file.write("".join(f"{it}\n" for it in told))

    def call(self, *words):
        self.note("statements of" if "--statements" in words and "--incremental" not in words else "?")
        if self.name == os.environ["FAILS"]:
            return 1
        os.makedirs(self.rlib)
        return 0

    def build_rlib(self, flags, anew):
        self.note("proofs of")
        with open(f"{self.folder}/out/rlib/stamp", "w", encoding="utf-8") as file:
            file.write(self.stamp())
        return 0


def crates_below(top):
    rows, made = {}, {}
    with open(f"{top}/crates.txt", encoding="utf-8") as file:
        for row in (it.partition("#")[0] for it in file):
            if ":" in row:
                rows[row.split()[0].rstrip(":")] = row.partition(":")[2].split()

    def crate(name):
        if name not in made:
            made[name] = Crate(top, name, [crate(it) for it in rows[name] if it in rows])
        return made[name]

    return [crate(it) for it in rows]


def fits(*needs):
    return len(needs) <= 4


def guarded():
    return []


def lock(crates):
    return []
