"""A function's proof files in the names of an edit that may only rename: a body that means the same is then proved."""
import difflib
import os
import re


def words_of(text):
    """The words and signs of a text."""
    return re.findall(r"\w+|[^\w\s]", text)


def renamed_words(pairs):
    """The words that an edit gives in place of others, where that is all it does. None where it does more."""
    found = {}
    for _, old, new in pairs:
        one, other = words_of(old), words_of(new)
        if len(one) != len(other):
            return None
        for was, now in zip(one, other):
            if was != now and (found.setdefault(was, now) != now or not re.fullmatch(r"[a-z_]\w*", was)):
                return None
    return found


def renamed_goals(lost, opened):
    """For each goal that is gone, the open one whose name is most like its own."""
    found = {}
    for goal in sorted(lost):
        fits = difflib.get_close_matches(goal, opened - {*found.values()}, 1, 0)
        found.update({goal: fits[0]} if fits else {})
    return found


def carried(text, goals, words):
    """A proof file's text with these goals and words in place of those."""
    for was, now in goals.items():
        text = re.sub(rf"(?<![\w-]){re.escape(was)}(?![\w-])", now, text)
    for was, now in words.items():
        # As a part of a step's name, or a variable of a step; a clause's name stays.
        text = re.sub(rf"(?<=-){was}(?![\w])|(?<![\w.]){was}(?=-)|(?<!ensures\.)(?<!requires\.)(?<=\.){was}(?![\w-])", now, text)
    return text


def in_its_names(edit, told, folder):
    """The texts with the edit, and with its function's own proof files in its names. None where there is nothing to carry over."""
    words, goals = renamed_words(edit.pairs) or {}, renamed_goals(told.lost, told.opened)
    if not words and not goals:
        return None
    texts = edit.applied({}, folder)
    for at, _, names in os.walk(f"{folder}/proofs/{edit.path.replace('.', '/')}"):
        for name in names:
            with open(f"{at}/{name}", encoding="utf-8") as file:
                texts[os.path.relpath(f"{at}/{name}", folder)] = carried(file.read(), goals, words)
    return texts
