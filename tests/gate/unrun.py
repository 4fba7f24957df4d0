"""The public functions that no test runs, as far as names show: one is run if a test names it, or a function of this name that is run."""
import re

import free
import source

WORD = re.compile(r"\w+")
# What precedes `fn` of a public function.
PUBLIC = re.compile(r"\bpub\s[\w\s\"]*$")
# A call of the C library, by its name in a test of any language.
CALL = re.compile(r"\bpbcnf_\w+")


def is_public(text, function):
    """True if the function is public and has a body that does anything; a law has none."""
    code = source.blanked(text)
    begin, end = function.body
    return PUBLIC.search(code, code.rfind("\n", 0, function.begin) + 1, function.begin) and code[begin + 1 : end].strip()


def named_in(text, function):
    """The words in a function's body."""
    return set(WORD.findall(source.blanked(text)[slice(*function.body)]))


def run_names(functions, tests):
    """The names that tests run: what these names have, and what is in the bodies of functions of a name that is run."""
    found, waiting = set(), set(tests)
    while waiting:
        found |= waiting
        waiting = {word for name in waiting for words in functions.get(name, ()) for word in words} - found
    return found


def unrun_functions(crates, calls):
    """The crate and the name of each public function that no test runs, of the texts of crates by their modules. Further tests
    run the calls of the C library that they name, in these texts."""
    functions, tests = {}, {word for text in calls for word in CALL.findall(text)}
    for crate, texts in crates.items():
        for module, text in texts.items():
            for function in source.functions_of(text, module):
                functions.setdefault(function.name, []).append(named_in(text, function))
                if crate.startswith("tests_"):
                    tests |= named_in(text, function)
    run = run_names(functions, tests)
    for crate, texts in crates.items():
        for module, text in texts.items():
            for function in source.functions_of(text, module):
                if function.name not in run and not crate.startswith("tests_") and is_public(text, function):
                    yield crate, free.name_of(function)
