#!/usr/bin/env python3
"""Who works which shift of a week, so that few wishes are broken: a model with names and conditions, and a solver on the path.

usage: shifts.py [SOLVER]

SOLVER reads DIMACS from a file, as cadical, which is taken where none is named. Exit status: 0, that of pbcnf in the same
case, or 69 where there is no such solver.
"""

import sys

import pbcnf
from pbcnf.model import Model, total

DAYS, SHIFTS = 7, {"early": 8, "late": 8, "night": 10}
NURSES = ("Ann", "Bob", "Cat", "Dan", "Eve")
# Whose wish it is to have which day off, and what it weighs.
WISHES = {("Ann", 0): 2, ("Ann", 6): 5, ("Bob", 2): 3, ("Cat", 6): 5, ("Cat", 5): 4, ("Dan", 5): 4, ("Dan", 6): 3, ("Eve", 0): 3, ("Eve", 5): 5}


def week():
    """The model, and the variables of who works which shift on which day."""
    model = Model()
    works = {(who, day, shift): model.bool("%s[%d]%s" % (who, day, shift)) for who in NURSES for day in range(DAYS) for shift in SHIFTS}
    for day in range(DAYS):
        for shift in SHIFTS:
            model += total(works[who, day, shift] for who in NURSES) == 1
    for who in NURSES:
        for day in range(DAYS):
            model += total(works[who, day, shift] for shift in SHIFTS) <= 1
        for day in range(DAYS - 1):
            model += works[who, day, "night"] + works[who, day + 1, "early"] <= 1
        hours = total(SHIFTS[shift] * works[who, day, shift] for day in range(DAYS) for shift in SHIFTS)
        model += hours >= 30
        # Who is on nights has two or three of them and shorter hours, and everybody else has none.
        nights, is_on_nights = total(works[who, day, "night"] for day in range(DAYS)), model.bool(who + "_nights")
        model += (nights >= 2).only_if(is_on_nights)
        model += (nights <= 3).only_if(is_on_nights)
        model += (hours <= 38).only_if(is_on_nights)
        model += (nights == 0).only_if(~is_on_nights)
        model += (hours <= 48).only_if(~is_on_nights)
    model.minimize(total(weight * works[who, day, shift] for (who, day), weight in WISHES.items() for shift in SHIFTS))
    return model, works


def main():
    model, works = week()
    try:
        best = model.solve(*sys.argv[1:])
    except pbcnf.Error as error:
        print(error, file=sys.stderr)
        return error.status
    except OSError as error:
        print("shifts: the solver was not run: %s" % error, file=sys.stderr)
        return 69
    for who in NURSES:
        letters = (next((shift[0] for shift in SHIFTS if best[works[who, day, shift]]), ".") for day in range(DAYS))
        print("%s  %s" % (who, " ".join(letters)))
    print("broken wishes weigh", best.objective)
    return 0


sys.exit(main())
