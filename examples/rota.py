#!/usr/bin/env python3
"""A rota: who is on duty on which day of a week, so that few wishes are passed over."""

from pbcnf.tools.answers import best

DAYS = ["Mon", "Tue", "Wed", "Thu", "Fri", "Sat", "Sun"]
NEEDED = [2, 2, 3, 2, 3, 2, 1]
# What it costs to have somebody come on a day.
COSTS = {"Ann": [0, 0, 3, 1, 0, 5, 9], "Bob": [1, 0, 0, 4, 2, 0, 9], "Cat": [5, 2, 0, 0, 1, 3, 0], "Dan": [0, 6, 1, 2, 0, 4, 8], "Eve": [2, 0, 4, 0, 0, 1, 9]}

text = "min: " + " ".join(f"+{cost} {who}{day}" for who in COSTS for day, cost in zip(DAYS, COSTS[who])) + " ;\n"
for day, needed in zip(DAYS, NEEDED):
    text += " ".join(f"+1 {who}{day}" for who in COSTS) + f" = {needed} ;\n"
for who in COSTS:
    # Three days each, and not four in five.
    text += " ".join(f"+1 {who}{day}" for day in DAYS) + " = 3 ;\n"
    for first in range(3):
        text += " ".join(f"+1 {who}{day}" for day in DAYS[first:first + 3]) + " <= 2 ;\n"

rota = best(text)
print("     " + " ".join(DAYS))
for who in COSTS:
    print(f"{who}   " + "   ".join("x" if rota.values[who + day] else "." for day in DAYS))
print("cost", rota.value)
