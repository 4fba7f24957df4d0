"""An edit that a contract has to refuse, as a file: its texts, and the function whose body it changes."""
import os
import re

import source

# Where a crate's edits stand: those that the gate tries, and those that it leaves out.
FOLDERS = ("must-fail", "edits")


class Unfit(Exception):
    """Why an edit cannot be applied."""


def edits_of(folder):
    """The files of the edits of the crate in a folder."""
    found = []
    for part in FOLDERS:
        names = sorted(os.listdir(f"{folder}/{part}")) if os.path.isdir(f"{folder}/{part}") else []
        found += [f"{folder}/{part}/{name}" for name in names if name.endswith(".edit")]
    return found


class Edit:
    """A file of lines `file: PATH`, `old: TEXT` and `new: TEXT`: each old text occurs once in the last file that was named."""

    def __init__(self, file):
        self.file, self.name = file, os.path.basename(file)[: -len(".edit")]
        self.pairs = []
        # What it concerns: a function with its file and its name for the check, or why it may concern every function.
        self.function, self.at, self.path, self.why = None, None, None, ""
        path = old = None
        with open(file, encoding="utf-8") as text:
            for line in text.read().split("\n"):
                if line.startswith("file: "):
                    path = line[len("file: ") :].strip()
                elif line.startswith("old: "):
                    old = line[len("old: ") :]
                elif line.startswith("new:") and path and old:
                    self.pairs.append((path, old, re.sub(r"\A ", "", line[len("new:") :])))
                    old = None

    def applied(self, texts, folder):
        """These texts by their paths, and those of the crate's folder, with the edit."""
        made = dict(texts)
        if not self.pairs:
            raise Unfit("it has no pair of an old and a new text")
        for path, old, new in self.pairs:
            if path not in made:
                made[path] = text_of(folder, path)
            found = made[path].count(old)
            if found != 1:
                raise Unfit(f"an old text occurs in {path} {found} times, and not once")
            made[path] = made[path].replace(old, new)
        if all(old == new for _, old, new in self.pairs):
            raise Unfit("it changes nothing")
        return made

    def place(self, folder, functions, path_of):
        """Finds the function that the edit changes. functions has those of each file, and path_of gives the check's name of one."""
        found = set()
        for path, old, new in self.pairs:
            if not path.startswith("src/"):
                self.why = f"it changes {path}"
                return
            # A `use` line belongs to the body that needs it.
            if old.startswith("use ") and new.startswith("use "):
                continue
            holder = holder_of(text_of(folder, path), old, functions.get(path, []))
            if not holder:
                self.why = "it changes what stands outside of a body"
                return
            found.add(holder)
            self.at = path
        if len(found) != 1:
            self.why = "it changes several bodies"
            return
        function = found.pop()
        self.path = path_of(function)
        if self.path:
            self.function = function
        else:
            self.why = f"nothing kept tells the check's name of {function.name}"


def text_of(folder, path):
    """A text of a crate that an edit names."""
    if not path.startswith(("src/", "specs/", "proofs/")) or os.path.normpath(path) != path:
        raise Unfit(f"{path} names no file of src/, specs/ or proofs/")
    if not os.path.isfile(f"{folder}/{path}"):
        raise Unfit(f"there is no file {path}")
    with open(f"{folder}/{path}", encoding="utf-8") as file:
        return file.read()


def holder_of(text, old, functions):
    """The function in whose body an old text stands, but for blanks about it."""
    at = text.find(old)
    begin, end = at + len(old) - len(old.lstrip()), at + len(old.rstrip())
    return next((it for it in functions if it.body[0] <= begin and end <= it.body[1] + 1), None)


def functions_of_crate(folder):
    """The functions of each file of a crate's src/."""
    found = {}
    for at, _, names in os.walk(f"{folder}/src"):
        for name in sorted(it for it in names if it.endswith(".rt")):
            path = os.path.relpath(f"{at}/{name}", folder)
            found[path] = source.functions_of(text_of(folder, path), source.module_of(path))
    return found
