"""The crates of the project, by crates.txt."""

import os

TOP = os.path.dirname(os.path.dirname(os.path.dirname(os.path.realpath(__file__))))


def uses_of(top=TOP):
    """The crates of the project that each of them uses."""
    uses = {}
    with open(os.path.join(top, "crates.txt"), encoding="utf-8") as file:
        for line in file:
            name, _, rest = line.partition("#")[0].partition(":")
            if name.strip():
                uses[name.split()[0]] = rest.split()
    return {name: [other for other in rest if other in uses] for name, rest in uses.items()}


def below(name, uses):
    """The crate and all below it."""
    found, waiting = set(), [name]
    while waiting:
        one = waiting.pop()
        if one not in found:
            found.add(one)
            waiting += uses[one]
    return found
