"""Which crates changed since they were last looked at here, and which are above them."""
import hashlib
import os
import subprocess

import edits
import room

# What a crate's verdicts and edits read of it.
PARTS = (*room.PARTS, *edits.FOLDERS)


def above(names, uses):
    """The crates above some of these, which are left out. uses has what each crate uses itself."""
    found = set(names)
    while True:
        more = {it for it in uses if it not in found and found & set(uses[it])}
        if not more:
            return found - set(names)
        found |= more


def own_sum(crate):
    """A sum of a crate's own texts and edits, and of its line in crates.txt."""
    total = hashlib.sha256(repr(sorted(crate.said.items())).encode())
    for part in PARTS:
        for at, folders, names in os.walk(f"{crate.folder}/{part}"):
            folders.sort()
            for name in sorted(names):
                with open(f"{at}/{name}", "rb") as file:
                    total.update(repr((os.path.relpath(f"{at}/{name}", crate.folder), file.read())).encode())
    return total.hexdigest()


def mark_of(crate):
    """The file that has the sum of the crate as it last passed."""
    return f"{crate.folder}/out/quick"


def differ_from_head(top, crates):
    """The crates whose texts or edits differ from those that git has at HEAD. None if git does not say."""
    words = ["git", "-C", top, "status", "--porcelain", "--untracked-files=all", "-z", "--", "crates"]
    try:
        said = subprocess.run(words, capture_output=True, text=True, errors="replace")
    except OSError:
        return None
    if said.returncode:
        return None
    parts = tuple(f"crates/{it.name}/{part}/" for it in crates for part in PARTS)
    touched = [it[it.find("crates/") :] for it in said.stdout.split("\0")]
    return {it.split("/")[1] for it in touched if it.startswith(parts)}


def changed(top, crates, sums):
    """The crates that differ from what last passed here or, where nothing did, from HEAD. None if neither is known."""
    marks = {it.name: text_of(mark_of(it)) for it in crates}
    found = {name for name in marks if marks[name] and marks[name] != sums[name]}
    unmarked = [it for it in crates if not marks[it.name]]
    differ = differ_from_head(top, unmarked) if unmarked else set()
    return None if differ is None else found | differ


def note(crate, total):
    """Notes that a crate passed with this sum."""
    os.makedirs(f"{crate.folder}/out", exist_ok=True)
    with open(mark_of(crate), "w", encoding="utf-8") as file:
        file.write(total)


def text_of(path):
    """The text of a file, nothing where there is none."""
    if not os.path.isfile(path):
        return ""
    with open(path, encoding="utf-8") as file:
        return file.read()
