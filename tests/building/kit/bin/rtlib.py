"""As much of rt's library as ./build and tests/quick take, over a prover that proves nothing."""

import hashlib
import os

KIT = os.path.dirname(os.path.dirname(os.path.realpath(__file__)))
RATTLE = KIT + "/bin/rattle"
KEPT = ["--incremental", "out/incremental"]


def files_of(folder):
    for part in ("src", "specs", "proofs"):
        for below, _, names in sorted(os.walk("%s/%s" % (folder, part))):
            yield from ("%s/%s" % (below, name) for name in sorted(names))


def text_of(file):
    if os.path.isfile(file):
        with open(file, encoding="utf-8") as text:
            return text.read()
    return None


def sum_of(file):
    with open(file, "rb") as text:
        return hashlib.sha256(text.read()).hexdigest()


def lock(_crates):
    return []


def guarded():
    return []


class Crate:
    has_c = False

    def __init__(self, name, kind, folder, deps):
        self.name, self.folder, self.deps, self.said = name, folder, deps, {"name": name, "deps": [dep.name for dep in deps]}
        self.is_static, self.is_program = kind == ["staticlib"], os.path.isfile(folder + "/src/main.rt")
        self.rlib = "%s/out/rlib/%s.rlib" % (folder, name)

    def has_tests(self):
        return any("#[test]" in text_of(file) for file in files_of(self.folder))

    def makes_rlib(self):
        return not self.is_static and not self.is_program

    def words(self, flags):
        words = ["--crate-name", self.name]
        for dep in self.deps:
            words += ["--extern", dep.rlib]
        return [*words, *flags]


def crates_below(top):
    known = {}
    for line in text_of(top + "/crates.txt").splitlines():
        words, _, uses = line.partition(":")
        name, *kind = words.split()
        known[name] = Crate(name, kind, "%s/crates/%s" % (top, name), [known[it] for it in uses.split()])
    return list(known.values())
