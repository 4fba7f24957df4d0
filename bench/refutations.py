"""A refutation in LRAT that is made without a solver, so that it is the same everywhere.

usage: python3 bench/refutations.py HOLES OPB LRAT     writes the pigeons of so many holes, and their refutation
"""

import itertools
import sys

import instances


class Cases:
    """One pigeon more than holes, refuted by cases: the pigeons one after the other, each in every hole.

    The clauses are those of `encode --amo pairwise` over instances.pigeons: one for each pigeon, and for each hole one for each two
    pigeons. A case that is closed is a clause, which those of its own cases are hints for, and they are deleted then.
    """

    def __init__(self, holes):
        self.holes, self.lines = holes, []
        pairs = list(itertools.combinations(range(holes + 1), 2))
        self.pair_ids = {(hole, pair): holes + 2 + hole * len(pairs) + i for hole in range(holes) for i, pair in enumerate(pairs)}
        self.last = holes + 1 + holes * len(pairs)
        self.close([])

    def at(self, pigeon, hole):
        return pigeon * self.holes + hole + 1

    def close(self, taken):
        """Closes the case that the first pigeons are in these holes; the id of its clause."""
        pigeon, cases, hints = len(taken), [], []
        for hole in range(self.holes):
            if hole in taken:
                hints.append(self.pair_ids[hole, (taken.index(hole), pigeon)])
            else:
                cases.append(self.close(taken + [hole]))
        clause = [-self.at(other, hole) for other, hole in enumerate(taken)]
        self.last += 1
        self.lines.append(" ".join(map(str, [self.last, *clause, 0, *hints, *cases, pigeon + 1, 0])))
        if cases:
            self.lines.append(" ".join(map(str, [self.last, "d", *cases, 0])))
        return self.last

    def text(self):
        return "\n".join(self.lines) + "\n"


HOLES = {"small": 6, "medium": 8, "large": 9}


def main(holes, opb, lrat):
    for path, text in ((opb, instances.pigeons(int(holes)).text()), (lrat, Cases(int(holes)).text())):
        with open(path, "w") as file:
            file.write(text)


if __name__ == "__main__":
    main(*sys.argv[1:])
