"""The functions of which no clause says what they answer: a wrong body of one of these is proved."""
import re

import names
import source

# By which member an impl of a trait of std says what its method answers.
MEMBERS = {"Display": "output", "From": "from_gives", "Iterator": "next_gives"}
TRAIT = re.compile(r"\btrait\s+(\w+)")
FUNCTION = re.compile(r"\bfn\s+(\w+)")
# Of an impl: nothing is known of its values, so that the trait's clauses say nothing.
SILENT = re.compile(r"\bghost\s+\w+\s*=\s*\{\s*λ\s*\w+\.\s*None\s*\}")


def head_of(text, function):
    """What precedes the body of a function."""
    return source.blanked(text)[function.begin : function.body[0]]


def claims_of(text):
    """Of each trait of a text, the methods that have a clause."""
    code, found = source.blanked(text), {}
    for brace, close, head in source.holders_of(code):
        name = TRAIT.match(head)
        if name:
            places = [it.start() for it in FUNCTION.finditer(code, brace, close)] + [close]
            methods = [code[begin:end] for begin, end in zip(places, places[1:])]
            found[name[1]] = {FUNCTION.match(it)[1] for it in methods if "ensures" in it}
    return found


def impl_of(text, function):
    """The text of the impl that holds a function."""
    code = source.blanked(text)
    return next((text[brace:close] for brace, close, _ in source.holders_of(code) if brace < function.begin < close), "")


def is_claimed(text, function, traits):
    """True if a clause says what the function answers: its own, or one of its trait. A value that is let go answers nothing."""
    if "ensures" in head_of(text, function):
        return True
    _, trait = names.type_and_trait(function.holder)
    held = impl_of(text, function)
    if trait in traits:
        return function.name in traits[trait] and not SILENT.search(held)
    return trait == "Drop" or trait in MEMBERS and re.search(rf"\bghost\s+{MEMBERS[trait]}\s*=", held) is not None


def name_of(function):
    """The name of a function as a check writes it, `module.TypeTrait.function`."""
    kind, trait = names.type_and_trait(function.holder)
    return ".".join(it for it in (function.module, kind + trait, function.name) if it)


def free_functions(crates):
    """The crate and the name of each function that no clause claims, of the texts of crates by their modules."""
    traits = {name: methods for texts in crates.values() for text in texts.values() for name, methods in claims_of(text).items()}
    for crate, texts in crates.items():
        for module, text in texts.items():
            for function in source.functions_of(text, module):
                if not is_claimed(text, function, traits):
                    yield crate, name_of(function)
