"""The reply lines of a child with one table: to its declaration, one version and one list."""
import json

COLUMNS = {"id": "int", "name": "text", "size": "int", "region": "text", "owner": "text"}


class Numbers:
    """The same numbers on every machine."""

    def __init__(self):
        self.state = 1

    def below(self, bound):
        self.state = (self.state * 1103515245 + 12345) % 2**31
        return self.state // 65536 % bound


def item(at, numbers):
    return {
        "id": at,
        "name": f"item-{numbers.below(100000):05}",
        "size": numbers.below(1000),
        "region": ["eu", "us", "ap"][numbers.below(3)],
        "owner": None if numbers.below(10) == 0 else f"team-{numbers.below(50)}",
    }


def replies(count):
    columns = [{"name": name, "kind": kind} for name, kind in COLUMNS.items()]
    table = {"name": "item", "columns": columns, "list": {"function": "listItems"}}
    yield {"id": 1, "declaration": {"tables": [table]}}
    yield {"id": 2, "version": 1}
    numbers = Numbers()
    for at in range(count):
        yield {"id": 3, "item": item(at, numbers)}
    yield {"id": 3, "end": True}


def write_lines(count, file):
    for reply in replies(count):
        file.write(json.dumps(reply, separators=(",", ":")) + "\n")
