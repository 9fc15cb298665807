"""What a plugin is asked."""
import json

from .declaration import Declaration, Refused, order_of
from .lines import is_integer
from .report import shown

FITS = {
    "bool": lambda value: isinstance(value, bool),
    "int": is_integer,
    "text": lambda value: isinstance(value, str),
    "json": lambda value: True,
}


def check_fields(report, call, table, function):
    """Each column that is a field of these items has values of its kind, or null."""
    for column in table["columns"]:
        if column.get("function") != function:
            continue
        field = column.get("field", column["name"])
        if call.items and all(field not in item for item in call.items):
            report.note("fields that aren't there", f"{call.name()}: no item has the field {field}", call.lines[0])
        for item, line in zip(call.items, call.lines):
            value = item.get(field)
            if value is not None and not FITS[column["kind"]](value):
                words = f"{call.name()}: column {column['name']} is {column['kind']}, and not {shown(json.dumps(value))}"
                report.wrong(f"another kind of value in {table['name']}.{column['name']}", words, line)


def field_of(table, item, name):
    """What a column shows of an item, where it is a value that a condition may have."""
    for column in table["columns"]:
        if column["name"] == name and "function" not in column:
            value = item.get(column.get("field", name))
            return value if isinstance(value, (bool, int, str)) else None
    return None


class Conversation:
    def __init__(self, child, report):
        self.child = child
        self.report = report
        self.tables = []
        self.version = 0

    def run(self):
        declared = self.child.ask(op="declare")
        if declared.ending == "declaration":
            try:
                Declaration(declared.value)
                self.tables = declared.value["tables"]
            except Refused as refused:
                self.report.wrong("declaration", f"the declaration is refused: {refused}", json.dumps(refused.part))
        told = self.child.ask(op="version", tick=0)
        if told.ending == "version":
            self.version = told.value
        elif told.ending == "error":
            self.report.note("version", "the version is an error", told.lines[-1])
        for table in self.tables:
            self.try_table(table)
        self.ask_at_once()

    def ask(self, table, **members):
        """A call of a table with its whole reply; an error is noted."""
        call = self.child.ask(table=table["name"], version=self.version, attempt=1, **members)
        if call.ending == "error":
            self.report.note(f"errors of {table['name']}", f"{call.name()} ends with an error", call.lines[-1])
            if ":" not in call.value:
                words = "an error of the form `CODE: message` can be told from others by the pattern `CODE:*`"
                self.report.note("errors without a code", words, call.lines[-1])
        return call

    def try_table(self, table):
        items = []
        if "list" in table:
            items = self.try_list(table)
        if "get" in table:
            items += self.try_get(table, items)
        print(f"{table['name']}: {len(items)} items")
        for item in items[:3]:
            self.try_functions(table, item)

    def ask_list(self, table, conditions, parent):
        call = self.ask(table, op="list", function=table["list"]["function"], conditions=conditions, parent=parent)
        check_fields(self.report, call, table, None)
        self.check_conditions(call, table)
        return call.items

    def check_conditions(self, call, table):
        """What was asked for by `=` stands in each item."""
        for name, _, value in call.members["conditions"]:
            for item, line in zip(call.items, call.lines):
                if field_of(table, item, name) != value and not self.is_hydrated(table, name):
                    words = f"{call.name()} gave an item with another {name}"
                    self.report.wrong(f"items that weren't asked for by {table['name']}.{name}", words, line)

    def is_hydrated(self, table, name):
        return any(column["name"] == name and "function" in column for column in table["columns"])

    def try_list(self, table):
        keys = table["list"].get("keys", [])
        needed = [key["column"] for key in keys if key.get("require", "required") != "optional"]
        if needed:
            words = f"the list of {table['name']} wants conditions on {', '.join(needed)}, so it isn't tried"
            self.report.note("lists that aren't tried", words)
            return []
        items = []
        for parent in self.parents(table):
            items += self.ask_list(table, [], parent)
            for key in keys:
                value = field_of(table, items[0], key["column"]) if items else None
                if value is not None and "=" in key.get("operators", ["="]):
                    self.ask_list(table, [[key["column"], "=", value]], parent)
        return items

    def parents(self, table):
        """Some items that the list is called under; null alone where it has no parent."""
        if "parent" not in table["list"]:
            return [None]
        return self.ask(table, op="parents", function=table["list"]["parent"]["function"]).items[:3]

    def try_get(self, table, items):
        """Gets of what was listed."""
        found = []
        needed = sorted(key["column"] for key in table["get"]["keys"] if key.get("require", "required") != "optional")
        known = [[[name, "=", field_of(table, item, name)] for name in needed] for item in items[:3]]
        known = [conditions for conditions in known if all(value is not None for _, _, value in conditions)]
        if not known:
            words = f"no item with its keys was listed, so the get of {table['name']} isn't tried"
            self.report.note("gets that aren't tried", words)
        for conditions in known:
            call = self.ask(table, op="get", function=table["get"]["function"], conditions=conditions)
            if len(call.items) > 1:
                words = f"{call.name()} gave {len(call.items)} items; a get gives one at most"
                self.report.wrong("too many items of a get", words, call.lines[1])
            elif not call.items and call.ending == "end":
                words = f"{call.name()} gave nothing, though it was listed"
                self.report.note("gets without an item", words, call.request())
            check_fields(self.report, call, table, None)
            self.check_conditions(call, table)
            found += call.items
        return found

    def try_functions(self, table, item):
        """Each function of one item, after those that it depends on, where these gave results."""
        functions = {function["name"]: function for function in table.get("functions", [])}
        results = {}
        for name in order_of(table)[0]:
            depends = functions[name].get("depends", [])
            if any(needed not in results for needed in depends):
                continue
            handed = {needed: results[needed] for needed in depends}
            call = self.ask(table, op="hydrate", function=name, item=item, results=handed)
            if len(call.items) > 1:
                words = f"{call.name()} gave {len(call.items)} items; a function gives one at most"
                self.report.wrong("too many items of a function", words, call.lines[1])
            if call.ending == "end":
                results[name] = call.items[0] if call.items else None
            check_fields(self.report, call, table, name)

    def ask_at_once(self):
        """Several requests before any reply; replies may come in any order, also mixed."""
        calls = [self.child.call(op="version", tick=1)]
        for table in self.tables[:6]:
            if "list" in table and "parent" not in table["list"] and not table["list"].get("keys"):
                calls.append(self.child.call(
                    op="list", table=table["name"], function=table["list"]["function"],
                    version=self.version, attempt=1, conditions=[], parent=None,
                ))
        calls.append(self.child.call(op="version", tick=2))
        self.child.send(*calls)
        self.child.wait_for(calls)
