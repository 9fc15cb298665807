"""Lines that steampipe never sends: what comes of them is only noted."""
from .report import Report, Stop

BAD_LINES = [b"no JSON", b"", b"[]", b"{}", b'{"id":', b'{"id":"x","op":"version"}', b"\xff"]
NO_TABLE = {
    "op": "list", "table": "no such table", "function": "no such function",
    "version": 0, "attempt": 1, "conditions": [], "parent": None,
}


def goes_on_after(child, report, what, send):
    """Whether the plugin answers a version before and after what is sent; and what was wrong meanwhile."""
    child.ask(op="version", tick=0)
    said = child.report = Report()
    said.is_silent = True
    send()
    try:
        child.ask(op="version", tick=1)
        child.take(0.2)
    except Stop:
        report.note(what, f"{what} ends the plugin, or it answers no more (steampipe sends none)")
        raise Stop from None
    child.report = report
    return said


def try_request(child, report, what, members):
    call = child.call(**members)
    goes_on_after(child, report, what, lambda: child.send(call))
    if call.ending != "error":
        report.note(what, f"{what} isn't answered by an error (steampipe sends none)")


def try_unknown_kind(child, report):
    try_request(child, report, "a request of an unknown kind", {"op": "nothing"})


def try_unknown_table(child, report):
    try_request(child, report, "a list of a table that isn't declared", NO_TABLE)


def try_bad_lines(child, report):
    lines = b"".join(line + b"\n" for line in BAD_LINES)
    what = "a line that is no request"
    if goes_on_after(child, report, what, lambda: child.input.put(lines)).counts:
        report.note(what, f"{what} is answered by a line that fits no call (steampipe sends none)")
