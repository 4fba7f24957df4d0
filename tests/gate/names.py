"""The names by which a check knows a crate's functions, read off what it kept."""
import os
import re


def known_names(crate):
    """The names of the functions that a check of the crate proved, as `module.Type.function`."""
    kept = f"{crate.folder}/out/incremental"
    begin, end = f"Rattle-{crate.name}-proofs.", ".Statement.oantt"
    found = set()
    for inside in os.listdir(kept) if os.path.isdir(kept) else []:
        if inside.startswith("antt-checked"):
            files = os.listdir(f"{kept}/{inside}")
            found.update(it[len(begin) : -len(end)] for it in files if it.startswith(begin) and it.endswith(end))
    return sorted(it for it in found if it and ".TheImpl" not in it and ".TheLinks" not in it)


def type_and_trait(holder):
    """The last words of the type and of the trait of an impl's head, each nothing where there is none."""
    head, inner = holder.replace("->", ""), None
    while head != inner:
        inner, head = head, re.sub(r"<[^<>]*>", "", head)
    of = re.match(r"(?:impl|trait)\s+(?:([\w:]+)\s+for\s+)?&?(?:mut )?([\w:]+)", head)
    return (of[2].split("::")[-1], (of[1] or "").split("::")[-1]) if of else ("", "")


def path_of(function, known):
    """The check's name of a function: of those with its module and last word, the one whose type and trait fit best. None where none fits."""
    kind, trait = type_and_trait(function.holder)
    begin = f"{function.module}." if function.module else ""
    named = [it for it in known if it.split(".")[-1] == function.name]
    fits = [it for it in named if it.startswith(begin) and it.count(".") == begin.count(".") + bool(kind)]
    if kind:
        # A type's methods may be in another module than the type.
        fits = fits or [it for it in named if it.count(".")]
        of_kind = [it for it in fits if it.split(".")[-2].startswith(kind)]
        of_both = [it for it in of_kind if it.split(".")[-2] == kind + trait] or [it for it in of_kind if it.split(".")[-2].startswith(kind + trait)]
        fits = of_both or of_kind
    return fits[0] if fits else None
