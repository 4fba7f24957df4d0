"""Makes the wheel of the package pbcnf, with the C library inside, for pip: a build backend as PEP 517 has them, which takes nothing
but Python.

The library is the one that the environment's PBCNF_LIBRARY names, else that of ./build where it is newer than release/'s, else
release/'s. The wheel is for the processor that the library is for, and for each glibc from the version on that it asks for.
"""

import base64
import hashlib
import os
import platform
import re
import struct
import sys
import zipfile

_HERE = os.path.dirname(os.path.realpath(__file__))
_NAME = "libpbcnf.so.0"
# The commands by the modules of pbcnf.tools; `cheapest` is the older name of `minimize`.
_COMMANDS = {"cheapest": "minimize", "core": "core", "hints": "hints", "minimize": "minimize", "solve": "solve", "tidy": "tidy", "veripb": "veripb"}
_SUMMARY = "The proved encoder of pseudo-Boolean problems as CNF, by its C library"
# Processors by their numbers in the head of a library.
_MACHINES = {62: "x86_64", 183: "aarch64"}


def get_requires_for_build_wheel(config_settings=None):
    return []


def build_wheel(wheel_directory, config_settings=None, metadata_directory=None):
    """Writes the wheel, and gives its name."""
    with open(_library(), "rb") as file:
        library = file.read()
    version, tag = _version(), "py3-none-" + _platform(library)
    about = "pbcnf-%s.dist-info/" % version
    files = {"pbcnf/" + name: _read("pbcnf", *name.split("/")) for name in _modules()}
    files["pbcnf/" + _NAME] = library
    files[about + "METADATA"] = _lines("Metadata-Version: 2.1", "Name: pbcnf", "Version: " + version, "Summary: " + _SUMMARY, "Requires-Python: >=3.8")
    files[about + "entry_points.txt"] = _lines("[console_scripts]", *("pbcnf-%s = pbcnf.tools.%s:main" % command for command in _COMMANDS.items()))
    files[about + "WHEEL"] = _lines("Wheel-Version: 1.0", "Generator: pbcnf", "Root-Is-Purelib: false", "Tag: " + tag)
    files[about + "RECORD"] = _lines(*(_entry(name, files[name]) for name in files), about + "RECORD,,")
    wheel = "pbcnf-%s-%s.whl" % (version, tag)
    with zipfile.ZipFile(os.path.join(wheel_directory, wheel), "w") as archive:
        for name, content in files.items():
            _put(archive, name, content)
    return wheel


def build_sdist(sdist_directory, config_settings=None):
    raise SystemExit("pbcnf: there is no source distribution: the library is not built from library/python; `pip wheel` makes a wheel that has it")


def _library():
    """Where the library is that goes into the wheel."""
    named = os.environ.get("PBCNF_LIBRARY")
    top = os.path.dirname(os.path.dirname(_HERE))
    ways = "release/%s-%s" % (platform.machine(), sys.platform), "library/out"
    places = [named] if named else [os.path.join(top, way, _NAME) for way in ways]
    there = [place for place in places if os.path.isfile(place)]
    if not there:
        raise SystemExit("pbcnf: there is no %s; ./build builds it, and PBCNF_LIBRARY may name it" % " or ".join(places))
    return max(there, key=os.path.getmtime)


def _platform(library):
    """For which systems a shared library is, as a wheel's name says it."""
    if library[:6] != b"\x7fELF\x02\x01" or struct.unpack_from("<H", library, 18)[0] not in _MACHINES:
        raise SystemExit("pbcnf: the library is for no system that is known here")
    machine = _MACHINES[struct.unpack_from("<H", library, 18)[0]]
    asked = [int(minor) for minor in re.findall(rb"\0GLIBC_2\.(\d+)", library)]
    # Names of wheels begin with glibc 2.5, or with the first version that a processor has.
    return "manylinux_2_%d_%s" % (max(asked + [5 if machine == "x86_64" else 17]), machine)


def _modules():
    """The files of the package, by their paths in it."""
    top = os.path.join(_HERE, "pbcnf")
    ways = (os.path.relpath(os.path.join(folder, name), top) for folder, _, names in os.walk(top) for name in names)
    return sorted(way.replace(os.sep, "/") for way in ways if way.endswith((".py", "py.typed")))


def _version():
    return re.search(r'^__version__ = "(.*)"$', _read("pbcnf", "__init__.py").decode(), re.MULTILINE).group(1)


def _read(*path):
    with open(os.path.join(_HERE, *path), "rb") as file:
        return file.read()


def _lines(*lines):
    return "".join(line + "\n" for line in lines).encode()


def _entry(name, content):
    """A file's line in the record: its name, its sum and its bytes."""
    total = base64.urlsafe_b64encode(hashlib.sha256(content).digest()).rstrip(b"=").decode()
    return "%s,sha256=%s,%d" % (name, total, len(content))


def _put(archive, name, content):
    """Adds a file without the time, so that the same files make the same wheel."""
    info = zipfile.ZipInfo(name)
    info.compress_type = zipfile.ZIP_DEFLATED
    info.external_attr = (0o100755 if name.endswith(_NAME) else 0o100644) << 16
    archive.writestr(info, content)
