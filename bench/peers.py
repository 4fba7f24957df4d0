"""What the program is measured beside: the C programs of bench/peer, and MiniSat+."""

import os
import re
import shutil
import subprocess

HERE = os.path.dirname(os.path.realpath(__file__))


def build(folder):
    """The folder of the compiled C programs, or None if they could not be compiled, which is reported; their columns are left out then."""
    status = subprocess.run([os.path.join(HERE, "peer", "build"), folder], stdout=subprocess.DEVNULL).returncode
    return folder if status == 0 else None


def without_negations(text):
    """The same problem without `~`, which MiniSat+ does not read: a * ~x is a - a * x."""
    lines = []
    for line in text.split("\n"):
        parts = re.match(r"(.*?)(>=|<=|=) (-?\d+) ;", line)
        if line.startswith("*") or "~" not in line or not parts:
            lines.append(line)
            continue
        right, terms = int(parts.group(3)), []
        for coefficient, literal in re.findall(r"([+-]\d+) (~?x\d+)", parts.group(1)):
            if literal.startswith("~"):
                right -= int(coefficient)
                terms.append("%+d %s" % (-int(coefficient), literal[1:]))
            else:
                terms.append("%s %s" % (coefficient, literal))
        lines.append("%s %s %d ;" % (" ".join(terms), parts.group(2), right))
    return "\n".join(lines)


def minisat_plus(text, opb, cnf):
    """The words by which MiniSat+ writes a problem as a CNF by diagrams, or None where it is not installed.

    It is its only form that gave no wrong answer here: docs/PERFORMANCE.md.
    """
    if not shutil.which("minisat+"):
        return None
    with open(opb, "w") as file:
        file.write(without_negations(text))
    return ["minisat+", opb, "-1", "-v0", "-cb", "-cnf=" + cnf]
