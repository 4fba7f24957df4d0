"""How figures, tables and pages are written."""

import os


def digits(value):
    """Three digits of a number, with no exponent."""
    if value >= 100:
        return "{:,.0f}".format(value)
    return "%.1f" % value if value >= 10 else "%.2f" % value


def count_of_bytes(value):
    if value is None:
        return "-"
    for step, name in ((10**9, "GB"), (10**6, "MB"), (10**3, "kB")):
        if value >= step:
            return "%s %s" % (digits(value / step), name)
    return "%d B" % value


def count(value):
    """A number of things, which may be many millions."""
    if value is None:
        return "-"
    return digits(value / 10**6) + " M" if value >= 10**6 else "{:,}".format(value)


def time_of(run):
    """The seconds of a run, or None where there is none, or it did not end well."""
    return run.seconds if run is not None and run.is_done() else None


def time(value):
    if value is None:
        return "-"
    return digits(value) + " s" if value >= 1 else "%s ms" % digits(value * 1000)


def ratio(one, other):
    return digits(one / other) if one and other else "-"


def memory(value):
    return "%s MiB" % digits(value) if value else "-"


def row(cells):
    return "| " + " | ".join(cells) + " |\n"


def table(head, rows):
    return row(head) + "|" + "---|" * len(head) + "\n" + "".join(row(cells) for cells in rows)


class Section:
    """A part of the page: its text, the plots by the names of their files, and what was seen to be wrong."""

    def __init__(self, text, plots, faults):
        self.text, self.faults = text, faults
        self.plots = {name: plot for name, plot in plots.items() if plot}

    def shown(self):
        return self.text + "".join("\n![%s](%s)\n" % (name[:-len(".svg")], name) for name in sorted(self.plots))


def write(name, section, folder):
    """Puts a section between its two marks of the page, and its plots beside that."""
    page = os.path.join(folder, "PERFORMANCE.md")
    begin, end = ("<!-- what bench/run %s wrote %s -->\n" % (name, word) for word in ("begins", "ends"))
    with open(page) as file:
        before, found, rest = file.read().partition(begin)
    _, found_end, behind = rest.partition(end)
    if not found or not found_end:
        raise SystemExit("bench: %s has no place for %s" % (page, name))
    with open(page, "w") as file:
        file.write(before + begin + "\n" + section.shown() + "\n" + end + behind)
    for plot, text in section.plots.items():
        with open(os.path.join(folder, plot), "w") as file:
            file.write(text)
