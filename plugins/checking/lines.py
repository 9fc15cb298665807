"""Reply lines, and what is wrong with them."""
import json

from .report import shown

DEEPEST_ITEM = 100


class Odd:
    """A number that is no integer of 64 bits, as it is written."""

    def __init__(self, text):
        self.text = text


def number(text):
    if len(text) > 20 or text == "-0" or not -(2**63) <= int(text) < 2**63:
        return Odd(text)
    return int(text)


def no_number(text):
    raise ValueError(f"{text} isn't JSON")


def json_of(line):
    """The value of a line; ValueError where it is no JSON."""
    try:
        return json.loads(line.decode("utf-8"), parse_float=Odd, parse_int=number, parse_constant=no_number)
    except RecursionError:
        raise ValueError("it is nested too deep") from None


def parts(value):
    """Each value within a value, with its path and its depth: 0 for the value itself."""
    waiting = [(value, "", 0)]
    while waiting:
        value, path, depth = waiting.pop()
        yield value, path, depth
        if isinstance(value, dict):
            waiting += [(key, path, depth + 1) for key in value]
            waiting += [(part, f"{path}.{key}", depth + 1) for key, part in value.items()]
        elif isinstance(value, list):
            waiting += [(part, f"{path}[{at}]", depth + 1) for at, part in enumerate(value)]


def depth_of(value):
    return max((depth + 1 for part, _, depth in parts(value) if isinstance(part, (dict, list))), default=0)


def is_text(value):
    """A text without halves of surrogate pairs, which have no bytes."""
    return isinstance(value, str) and value == value.encode("utf-8", "ignore").decode("utf-8")


def is_integer(value):
    return isinstance(value, int) and not isinstance(value, bool)


REPLIES = {
    "item": (lambda value: isinstance(value, dict), "an item is an object"),
    "end": (lambda value: value is True, "`end` is true"),
    "error": (is_text, "an error is a text"),
    "version": (lambda value: is_integer(value) and value >= 0, "a version is an integer that isn't negative"),
    "declaration": (lambda value: isinstance(value, dict), "a declaration is an object"),
}


def reply_fault(value):
    """Why a value is no reply line, as a kind and words; None if it is one."""
    for part, path, _ in parts(value):
        if isinstance(part, Odd):
            return "number", f"a number that is no integer of 64 bits: {shown(part.text)} at {path[1:] or 'the top'}"
        if isinstance(part, str) and not is_text(part):
            return "surrogate", f"half of a surrogate pair in a text at {path[1:] or 'the top'}, so the line is no JSON"
    if not isinstance(value, dict):
        return "shape", "a line that is no object"
    if not is_integer(value.get("id")):
        return "shape", "a line without a number `id`"
    kinds = [kind for kind in REPLIES if kind in value]
    if len(kinds) != 1:
        return "shape", "a line that needs one of `item`, `end`, `error`, `version` and `declaration` beside `id`"
    extra = [name for name in value if name not in ("id", kinds[0])]
    if extra:
        return "member too many", f"a member too many, `{extra[0]}`: a line has `id` and `{kinds[0]}` alone"
    fits, rule = REPLIES[kinds[0]]
    if not fits(value[kinds[0]]):
        return "shape", f"a line of another form: {rule}"
    if kinds[0] == "item" and depth_of(value["item"]) > DEEPEST_ITEM:
        return "depth", f"an item that nests {depth_of(value['item'])} deep; the most is {DEEPEST_ITEM}"
    return None
