#!/usr/bin/env python3
"""An upgrade of packages: the newest versions that go together, with as little else changed as that takes."""

from pbcnf.tools.answers import best

INSTALLED = {"editor": 1, "player": 2, "libtext": 1, "libsound": 1}
# Each version of each package, with what it needs: one of these versions.
NEEDS = {
    ("editor", 1): {"libtext": [1]}, ("editor", 2): {"libtext": [2, 3]}, ("editor", 3): {"libtext": [3], "libspell": [1]},
    ("player", 2): {"libsound": [1]}, ("player", 3): {"libsound": [2], "libtext": [1, 2]}, ("libspell", 1): {},
    ("libtext", 1): {}, ("libtext", 2): {}, ("libtext", 3): {}, ("libsound", 1): {}, ("libsound", 2): {"libtext": [2]},
}
WANTED = {"editor": 2}

name = {version: f"{version[0]}_{version[1]}" for version in NEEDS}
packages = dict.fromkeys(package for package, _ in NEEDS)
of = {package: [version for version in NEEDS if version[0] == package] for package in packages}
# To lose a package costs 100, to have a new one 10, to be a version behind the newest 2.
costs = {version: (0 if version[0] in INSTALLED else 10) + 2 * (max(number for _, number in of[version[0]]) - version[1]) for version in NEEDS}
costs = {version: cost - (100 if version[0] in INSTALLED else 0) for version, cost in costs.items()}
text = "min: " + " ".join(f"{costs[version]:+} {name[version]}" for version in NEEDS) + " ;\n"
for package in packages:
    text += " ".join(f"+1 {name[version]}" for version in of[package]) + " <= 1 ;\n"
for package, least in WANTED.items():
    text += " ".join(f"+1 {name[version]}" for version in of[package] if version[1] >= least) + " >= 1 ;\n"
for version, needs in NEEDS.items():
    for package, numbers in needs.items():
        text += f"+1 ~{name[version]} " + " ".join(f"+1 {name[package, number]}" for number in numbers) + " >= 1 ;\n"

taken = best(text).values
for package in packages:
    after = next((number for _, number in of[package] if taken[name[package, number]]), None)
    print(f"{package:9} {INSTALLED.get(package, '-')} -> {after or '-'}")
