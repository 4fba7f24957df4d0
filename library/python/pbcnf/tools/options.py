"""The command line: what the commands share, and the options that they hand on to `encode`."""

from __future__ import annotations

import argparse
import math
from typing import List, Mapping, Optional

import pbcnf
from pbcnf.tools import sources
from pbcnf.tools.encodings import Encodings
from pbcnf.tools.program import Program
from pbcnf.tools.solvers import KNOWN

_CHOICES = {
    "amo": ("auto", "pairwise", "ladder", "product"),
    "card": ("auto", "counter", "totalizer"),
    "general": ("diagram", "tree", "adder"),
    "equal": ("split", "joint"),
}
_ENVIRONMENT = """environment:
  PBCNF         a program in place of the pbcnf beside this command or on the path
  SOLVER        as --solver, where that is not given
  TMPDIR        where temporary files lie, which are gone at the end
"""


def parser(name: str, about: str, statuses: str) -> argparse.ArgumentParser:
    """A parser of the words that all commands have. `statuses` is the table that stands below its help."""
    made = argparse.ArgumentParser(
        prog=name, usage="%(prog)s OPB [option ..]", description=about, epilog=_ENVIRONMENT + "\n" + statuses, allow_abbrev=False, formatter_class=argparse.RawDescriptionHelpFormatter)
    made.add_argument("opb", metavar="OPB", help="the problem, which may be packed (.gz, .bz2, .xz); - is standard input")
    made.add_argument("--tidy", action="store_true", help="rewrite a text of another spelling first, as pbcnf-tidy does")
    made.add_argument("--version", action="version", version="pbcnf " + pbcnf.__version__)
    made.add_argument("--solver", metavar="CMD", help="the SAT solver, with its options; else the first on the path of " + ", ".join(KNOWN))
    made.add_argument("--seconds", metavar="S", type=_seconds, help="end after so many seconds")
    group = made.add_argument_group("options of encode")
    for option, words in _CHOICES.items():
        group.add_argument("--" + option, choices=words, help="of encode by itself: " + words[0])
    group.add_argument("--budget", metavar="B", type=_budget, help="the most fresh variables of a constraint, past which it goes to the adder")
    return made


def parse(made: argparse.ArgumentParser, words: Optional[List[str]], reasons: Mapping[str, str] = {}) -> argparse.Namespace:
    """What the words say. `reasons` has options that the command does not take, with the reason."""
    given, left = made.parse_known_args(words)
    if left:
        made.error(_why(made, left, reasons))
    return given


def _why(made: argparse.ArgumentParser, left: List[str], reasons: Mapping[str, str]) -> str:
    """Why words are not taken: the first option among them, which may have taken the place of the file, else the first word."""
    word = next((word for word in left if word.startswith("-")), left[0])
    option = word.split("=")[0]
    if not word.startswith("-"):
        return "%s: nothing but options may follow the OPB file" % word
    if option in reasons:
        return "%s: %s" % (option, reasons[option])
    # Of no use to most calls.
    import difflib
    known = [it for action in made._actions for it in action.option_strings]
    near = difflib.get_close_matches(option, known, 1, 0.8)
    return "there is no option %s; %s" % (option, "%s is one" % near[0] if near else "--help lists them")


def add_encoding(made: argparse.ArgumentParser) -> None:
    """Adds the option for who chooses what the options of `encode` leave open."""
    made.add_argument(
        "--encoding", choices=("auto", "plain"), help="auto, the default, chooses what the options of encode leave open; plain leaves it to encode")


def add_bounds(made: argparse.ArgumentParser) -> None:
    """Adds the options for a bound on the objective, for commands that choose none themselves."""
    group = made.add_mutually_exclusive_group()
    group.add_argument("--at-most", metavar="B", type=_bound, help="the objective is to be at most B")
    group.add_argument("--at-most-minus", metavar="B", type=_bound, help="the objective is to be at most -B")


def problem_of(words: argparse.Namespace, name: str) -> bytes:
    """The OPB text that the words name, which the command of this name may rewrite."""
    if words.tidy:
        # Most texts need nothing of it.
        from pbcnf.tools import tidy
        return tidy.read(words.opb, name)
    return sources.read(words.opb)


def encodings(words: argparse.Namespace, proved: Program) -> Encodings:
    """How a problem is encoded, by the words."""
    return Encodings(proved, of_encode(words), words.encoding != "plain")


def of_encode(words: argparse.Namespace) -> List[str]:
    """The options of `encode` among the words."""
    given = ((option, getattr(words, option)) for option in (*_CHOICES, "budget"))
    return ["--%s=%s" % (option, value) for option, value in given if value is not None]


def bound_of(words: argparse.Namespace) -> Optional[int]:
    """The bound among the words: the greatest value that the objective may have."""
    return words.at_most if words.at_most is not None else None if words.at_most_minus is None else -words.at_most_minus


def _seconds(word: str) -> float:
    try:
        value = float(word)
    except ValueError:
        value = 0.0
    if not (value > 0 and math.isfinite(value)):
        raise argparse.ArgumentTypeError("%s is no number of seconds above 0" % word)
    return value


def _count(word: str) -> int:
    if not (word.isascii() and word.isdigit()):
        raise argparse.ArgumentTypeError("%s is no number in digits" % word)
    return int(word)


def _budget(word: str) -> int:
    if not 1 <= _count(word) <= 10_000_000:
        raise argparse.ArgumentTypeError("%s is not from 1 to 10,000,000" % word)
    return int(word)


def _bound(word: str) -> int:
    if _count(word) >= 1 << 100:
        raise argparse.ArgumentTypeError("%s is not below 2^100" % word)
    return int(word)


def count_from_one(word: str) -> int:
    """A number from 1 on."""
    if _count(word) == 0:
        raise argparse.ArgumentTypeError("0 is too few")
    return int(word)
