#!/usr/bin/env python3
"""A budget: which projects to pay for, where some need others and some rule each other out."""

from pbcnf.tools.answers import best

# What each costs, in thousands, and what it is worth.
PROJECTS = {"roof": (120, 90), "solar": (80, 75), "windows": (95, 60), "heating": (140, 130), "kitchen": (60, 35), "garden": (30, 22), "bath": (70, 48), "garage": (110, 50)}
NEEDS = [("solar", "roof"), ("garden", "garage")]
EITHER = [("windows", "garage"), ("kitchen", "bath")]
MONEY = 350

# What is least with the signs turned is greatest.
text = "min: " + " ".join(f"-{worth} {project}" for project, (_, worth) in PROJECTS.items()) + " ;\n"
text += " ".join(f"+{cost} {project}" for project, (cost, _) in PROJECTS.items()) + f" <= {MONEY} ;\n"
text += "".join(f"+1 {other} -1 {project} >= 0 ;\n" for project, other in NEEDS)
text += "".join(f"+1 {one} +1 {other} <= 1 ;\n" for one, other in EITHER)

chosen = best(text)
for project, (cost, worth) in PROJECTS.items():
    print(f"{'+' if chosen.values[project] else '-'} {project:8} {cost:4} {worth:4}")
print(f"  cost {sum(cost for project, (cost, _) in PROJECTS.items() if chosen.values[project])} of {MONEY}, worth {-chosen.value}")
