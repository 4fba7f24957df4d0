"""What a check's words say of an edit: whether a goal of the function that it changes is open or shown false."""
import re
from typing import NamedTuple

import source

# What a try comes to. Only the first is as it must be.
REFUSED = "refused"
PROVED = "PROVED: not refused"
ELSEWHERE = "REFUSED ELSEWHERE ALONE"
RENAMES = "ONLY RENAMES"
NAMES = "ONLY NAMES ARE LOST"
UNREAD = "NOT READ"
LIMIT = "NO VERDICT"
# The function could not be judged, as one that it calls is not proved.
AGAIN = "again"

# What is said where a proof names what is gone.
GONE = re.compile(r"has no field|is not in scope|has no `|was not admitted|is no name|cannot find")
MESSAGE = re.compile(r"(note: )?(?:\./)?(\S+?):(\d+):\d+: (.*)")
OPEN = "it is not proved that"


class Told(NamedTuple):
    """What a try came to and why, the goals whose answers lost them, and those that are open."""

    kind: str
    why: str
    lost: frozenset = frozenset()
    opened: frozenset = frozenset()


class Words(NamedTuple):
    """What is said at a function: the rows at goals, those where a name is gone, the goals whose answers lost them, and those that are open."""

    goals: list
    gone: list
    lost: set
    opened: set


def joined(said):
    """The lines of a check, each message with the lines that it goes on in."""
    rows = []
    for line in said.split("\n"):
        if rows and line.startswith("  "):
            rows[-1] += " " + line.strip()
        else:
            rows.append(line)
    return rows


def short(text, most=170):
    """A message on one line, cut."""
    return re.sub(r"\s+", " ", text)[:most]


def is_read(said):
    """True if the check read the texts: it then ends with a line of its own."""
    return bool(re.search(r"(?m)^(logic|only)=", said)) and not re.search(r"(?m)^(\S+:\d+:\d+: )?error\[", said)


def unread(status, said):
    """What a check comes to that has not read the texts: the prover ends with 3 where it gives no verdict."""
    kind = LIMIT if status == 3 else UNREAD
    return Told(kind, short(next((it for it in said.split("\n") if "error" in it), said[-200:])))


def line_of(said, crate, path):
    """What the check's line for a function says, or None where it has none."""
    found = re.search(rf"(?m)^fn {crate}::{re.escape(path.replace('.', '::'))}: (.*)", said)
    return found[1] if found else None


def words_at(said, file, lines, proofs):
    """What is said at a function: within these lines of its file, and in its folder of proofs."""
    found = Words([], [], set(), set())
    for row in joined(said):
        at = MESSAGE.match(row)
        if not at or not (at[2] == file and lines[0] <= int(at[3]) <= lines[1] or at[2].startswith(f"{proofs}/")):
            continue
        goal = re.match(r"error: `([^`]+)`: ", at[4])
        if GONE.search(at[4]):
            found.gone.append(row)
            found.lost.update([goal[1]] if goal and "Goals` has no `" in at[4] else [])
        elif OPEN in row:
            named = re.search(r"\(`([^`]+)`\)", row)
            found.opened.add(named[1] if named else row)
            found.goals.append(row)
        elif "error" in row:
            found.goals.append(row)
    return found


def judged(words, otherwise):
    """What the words at a function that is not proved come to. An answer whose goal is gone leaves a goal of another name open, so that
    as many open goals as such answers show nothing."""
    sure = [it for it in words.goals if not any(f"(`{goal}`)" in it for goal in words.opened)]
    if sure or len(words.opened) > len(words.lost):
        return Told(REFUSED, short((sure or words.goals)[0]))
    if words.gone:
        return Told(NAMES, short(words.gone[0]), frozenset(words.lost), frozenset(words.opened))
    return Told(AGAIN, short(otherwise))


def verdict(said, crate, edit, texts):
    """What a check of these texts says of the function of one edit in them."""
    line = line_of(said, crate, edit.path)
    if line is None:
        return Told(UNREAD, short(next((it for it in said.split("\n") if "error" in it), "the check has no line for its function")))
    if line == "proved":
        return Told(PROVED, "its function is proved with it")
    if line.startswith("could not tell"):
        return Told(LIMIT, short(line))
    lines = source.lines_of_same(texts[edit.at], edit.function)
    return judged(words_at(said, edit.at, lines, "proofs/" + edit.path.replace(".", "/")), line)


def verdict_of_all(said):
    """What a check says of an edit that may concern every function: whether a goal of any is open or shown false."""
    rows = [it for it in joined(said) if MESSAGE.match(it) and (": error" in it or OPEN in it)]
    goals = [it for it in rows if not GONE.search(it)]
    if goals:
        return Told(REFUSED, short(goals[0]))
    return Told(NAMES, short(rows[0])) if rows else Told(LIMIT, short(said[-300:]))
