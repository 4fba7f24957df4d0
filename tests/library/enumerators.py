#!/usr/bin/env python3
"""The numbers of pbcnf.h are those of the Python module and of the Rust crate, name by name.

usage: enumerators.py HEADER NUMBERS.RS
"""

import os
import re
import sys
import unittest

from pbcnf import _arguments, _native, errors


def read(name):
    with open(name) as file:
        return file.read()


def header(kind):
    """The names and numbers of the header's enumerators PBCNF_KIND_.., but for that of 0."""
    found = re.findall(r"^  PBCNF_%s_(\w+) = (\d+)" % kind, read(HEADER), re.M)
    return [(name.replace("_", "").lower(), int(number)) for name, number in found if number != "0"]


def crate(name):
    """Those of an enum of the crate."""
    body = re.search(r"\n    %s \{\n(.*?)\n    \}" % name, read(NUMBERS), re.S).group(1)
    return [(variant.lower(), int(number)) for variant, number in re.findall(r"^        (\w+) = (\d+),", body, re.M)]


class Numbers(unittest.TestCase):
    def test_the_crate(self):
        for name in ("File", "Limit", "Expected", "Denied", "Unproved"):
            self.assertEqual(crate(name), header(name.upper()))
            self.assertGreater(len(crate(name)), 3)

    def test_the_interface(self):
        self.assertIn("#define PBCNF_ABI %d\n" % _native.ABI, read(HEADER))
        with open(os.path.join(os.path.dirname(NUMBERS), "../sys/src/lib.rs")) as file:
            self.assertIn("pub const ABI: u32 = %d;" % _native.ABI, file.read())

    def test_the_module(self):
        self.assertEqual([(name.lower(), number) for number, name in enumerate(errors.FILES) if name], header("FILE"))
        relations = {">=": "AT_LEAST", "<=": "AT_MOST", "=": "EQUAL"}
        for relation, number in _arguments.RELATIONS.items():
            self.assertIn("PBCNF_%s = %d" % (relations[relation], number), read(HEADER))
        statuses = {int(number): name for name, number in re.findall(r"^  PBCNF_([A-Z]+(?:_[A-Z]+)?) = (\d+),? *(?:/\*|$)", read(HEADER).partition("};")[0], re.M)}
        self.assertEqual({number for number in statuses if statuses[number] not in ("DONE", "UNREAD", "NO_ROOM")}, set(errors.KINDS))


HEADER, NUMBERS = sys.argv[1:]
unittest.main(argv=[sys.argv[0], "-q"])
