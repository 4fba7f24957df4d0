"""The functions of a file of Rust, found by its text: where each begins, and where its body stands."""
import functools
import re

# Comments, strings and characters; a lifetime is none.
APART = re.compile(r"""//[^\n]*|\bb?r(#*)".*?"\1|b?"(?:[^"\\]|\\.)*"|b?'(?:[^'\\\n]|\\u\{[^}\n]*\}|\\[^\n])'""", re.S)
# What precedes the brace of a clause, as `ensures sum {` and `ghost low: {`.
CLAUSE = re.compile(r"\b(requires|ensures|ghost|invariant|measure|decreases)\b\*?\s*(\w+\s*:?\s*)?$")
HOLDER = re.compile(r"(?m)^\s*(?:pub(?:\([a-z]+\))?\s+)?(?:unsafe\s+)?(impl\b|trait\b)")
CALL = re.compile(r"\b(\w+)\s*(?:::<[^>]*>)?\(")


class Function:
    """A function with a body: the module and the impl or trait that hold it, where `fn` begins, and the braces of its body."""

    def __init__(self, module, holder, name, begin, body, text):
        self.module, self.holder, self.name, self.begin, self.body = module, holder, name, begin, body
        self.calls = set(CALL.findall(text[body[0] : body[1]]))


@functools.lru_cache(maxsize=16)
def blanked(text):
    """The text with comments, strings and characters blanked, at the same places."""
    return APART.sub(lambda it: re.sub(r"[^\n]", " ", it[0]), text)


def close_of(code, at):
    """The place of the brace that closes the one at this place."""
    depth = 0
    for place in range(at, len(code)):
        depth += {"{": 1, "}": -1}.get(code[place], 0)
        if depth == 0:
            return place
    return len(code)


def stop_of(code, at):
    """The place of the next brace that opens, or of `;`, outside of brackets and parentheses."""
    depth = 0
    while at < len(code) and not (depth == 0 and code[at] in "{;"):
        depth += {"(": 1, "[": 1, ")": -1, "]": -1}.get(code[at], 0)
        at += 1
    return at


def body_of(code, at):
    """The braces of the body of the function whose head goes on at this place, after its clauses. None where it has no body."""
    begin, stop = at, stop_of(code, at)
    while stop < len(code) and code[stop] == "{":
        close = close_of(code, stop)
        if not CLAUSE.search(code[begin:stop]):
            return stop, close
        begin, stop = close + 1, stop_of(code, close + 1)
    return None


def holders_of(code):
    """The impls and traits: the braces of each, and its head."""
    found = []
    for it in HOLDER.finditer(code):
        brace = code.find("{", it.end())
        found.append((brace, close_of(code, brace), " ".join(code[it.start(1) : brace].split())))
    return found


def functions_of(text, module):
    """The functions with a body of a file of src/. One that stands within another belongs to that one."""
    code, found = blanked(text), []
    holders = holders_of(code)
    for it in re.finditer(r"\bfn\s+(\w+)", code):
        body = body_of(code, it.end())
        if body and not any(one.body[0] < it.start() < one.body[1] for one in found):
            holder = next((head for brace, close, head in reversed(holders) if brace < it.start() < close), "")
            found.append(Function(module, holder, it[1], it.start(), body, text))
    return found


def module_of(path):
    """The module of a file of src/, as `a.b`, and nothing for the crate's own file."""
    module = re.sub(r"^src/|\.rt$", "", path).replace("/", ".")
    return "" if module in ("lib", "main") else re.sub(r"\.mod$", "", module)


def reach_of(function, every):
    """The functions that one may call, by any number of calls between, as far as names show."""
    found, waiting = set(), [function]
    while waiting:
        calls = waiting.pop().calls
        more = [it for it in every if it.name in calls and it not in found]
        found.update(more)
        waiting += more
    return found - {function}


def lines_of(text, function):
    """The first and the last line of a function."""
    return text.count("\n", 0, function.begin) + 1, text.count("\n", 0, function.body[1]) + 1


def lines_of_same(text, function):
    """The lines of the function of that name in a text that was edited, all where it is not found."""
    same = [it for it in functions_of(text, function.module) if (it.name, it.holder) == (function.name, function.holder)]
    return lines_of(text, same[0]) if same else (1, text.count("\n") + 1)
