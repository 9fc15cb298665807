"""The rules of a declaration."""
from .lines import is_integer, is_text


class Refused(Exception):
    """The declaration breaks a rule, in this part of it."""

    def __init__(self, words, part):
        super().__init__(words)
        self.part = part


KINDS = ["bool", "int", "text", "json"]
OPERATORS = ["=", "<>", "<", "<=", ">", ">="]
RULES = ["ignore", "retry"]


class Declaration:
    """Reads a declaration, or raises Refused with its first fault: shapes come first, limits last."""

    def __init__(self, value):
        self.place = "outside of tables"
        self.part = value
        self.limits = []
        self.members(value, "the declaration", ["tables"], RULES)
        self.rules(value, "the declaration")
        self.most(self.array(value, "tables"), 512, "`tables`")
        self.each_table(value["tables"], self.table_shape)
        self.place, self.part = "outside of tables", value
        self.distinct([table["name"] for table in value["tables"]], "two tables")
        for rule in [self.table_names, self.table_functions, self.table_circles, self.table_keys, self.table_access]:
            self.each_table(value["tables"], rule)
        if self.limits:
            raise self.limits[0]

    def each_table(self, tables, rule):
        for at, table in enumerate(tables):
            name = table.get("name") if isinstance(table, dict) else None
            self.place = f"in table {at + 1}" + (f" ({name})" if isinstance(name, str) else "")
            self.part = table
            rule(table)

    def refuse(self, kind, words):
        raise Refused(f"{kind} {self.place}: {words}", self.part)

    def limit(self, words):
        """Kept until all else was looked at."""
        self.limits.append(Refused(f"limit {self.place}: {words}", self.part))

    # -- forms

    def members(self, value, what, needed, others):
        self.part = value
        if not isinstance(value, dict):
            self.refuse("shape", f"{what} is no object")
        for name in needed:
            if name not in value:
                self.refuse("shape", f"{what} has no `{name}`")
        for name in value:
            if name not in needed + others:
                self.refuse("shape", f"{what} has the unknown member `{name}`")

    def array(self, value, name):
        if not isinstance(value.get(name, []), list):
            self.refuse("shape", f"`{name}` is no array")
        return value.get(name, [])

    def most(self, values, count, what):
        if len(values) > count:
            self.limit(f"{what} has {len(values)} members; the most is {count}")

    def name(self, value, what):
        if not is_text(value) or value == "" or any(ord(c) < 32 or ord(c) == 127 for c in value):
            self.refuse("shape", f"{what} is no name: a text of 1 to 63 bytes without control characters")
        if len(value.encode("utf-8")) > 63:
            self.limit(f"{what} has more than 63 bytes")

    def word(self, value, name, words, default=None):
        if value.get(name, default) not in words:
            self.refuse("shape", f"`{name}` is one of {', '.join(words)}")

    def texts(self, value, what):
        if not isinstance(value, list) or not all(is_text(text) for text in value):
            self.refuse("shape", f"{what} is no array of texts")
        self.most(value, 64, what)

    def range(self, value, name, least, most):
        if not is_integer(value.get(name, least)):
            self.refuse("shape", f"`{name}` is no integer")
        if not least <= value.get(name, least) <= most:
            self.limit(f"`{name}` is from {least} to {most}")

    def rules(self, value, what):
        """`ignore` and `retry`."""
        if "ignore" in value:
            self.texts(value["ignore"], "`ignore`")
        if "retry" in value:
            retry = value["retry"]
            self.members(retry, f"`retry` of {what}", ["patterns", "attempts", "backoff", "interval"], ["cap"])
            self.texts(retry["patterns"], "`patterns`")
            self.word(retry, "backoff", ["constant", "fibonacci", "exponential"])
            self.range(retry, "attempts", 1, 20)
            self.range(retry, "interval", 0, 1000000)
            self.range(retry, "cap", 0, 1000000000)

    def tags(self, value):
        tags = value.get("tags", {})
        if not isinstance(tags, dict) or not all(is_text(text) for text in tags.values()):
            self.refuse("shape", "`tags` is no object of texts")
        for name in ["plugin", "connection", "table", "function_name"]:
            if name in tags:
                self.refuse("shape", f"no tag has the name `{name}`")
        self.most(tags, 16, "`tags`")

    def access(self, value, what, needed, others):
        self.members(value, what, ["function"] + needed, others + ["tags"] + RULES)
        self.name(value["function"], f"`function` of {what}")
        self.tags(value)
        self.rules(value, what)

    # -- a table

    def table_shape(self, table):
        self.members(table, "the table", ["name", "columns"], ["list", "get", "functions"] + RULES)
        self.name(table["name"], "`name`")
        columns = self.array(table, "columns")
        if not columns:
            self.refuse("shape", "the table has no column")
        self.most(columns, 256, "`columns`")
        for at, column in enumerate(columns):
            self.column_shape(column, f"column {at + 1}")
        if "list" in table:
            self.access(table["list"], "`list`", [], ["keys", "parent"])
            self.keys_shape(table, table["list"], "list")
            if "parent" in table["list"]:
                self.access(table["list"]["parent"], "`parent`", [], [])
        if "get" in table:
            self.access(table["get"], "`get`", ["keys"], [])
            self.keys_shape(table, table["get"], "get")
        self.most(self.array(table, "functions"), 64, "`functions`")
        for function in self.array(table, "functions"):
            self.function_shape(function)
        self.rules(table, "the table")

    def column_shape(self, column, what):
        self.members(column, what, ["name", "kind"], ["function", "field"])
        for member in ["name", "function", "field"]:
            if member in column:
                self.name(column[member], f"`{member}` of {what}")
        self.word(column, "kind", KINDS)

    def function_shape(self, function):
        self.members(function, "a function", ["name"], ["depends", "tags"] + RULES)
        self.name(function["name"], "the name of a function")
        for name in self.array(function, "depends"):
            self.name(name, "a name in `depends`")
        self.tags(function)
        self.rules(function, f"the function {function['name']}")

    def keys_shape(self, table, access, what):
        keys = self.array(access, "keys")
        for key in keys:
            self.members(key, f"a key of `{what}`", ["column"], ["operators", "require", "match"])
            self.name(key["column"], "`column` of a key")
            if key["column"] not in [column["name"] for column in table["columns"]]:
                self.refuse("shape", f"`{what}` has a key on {key['column']}, which is no column")
            if not all(operator in OPERATORS for operator in self.array(key, "operators")):
                self.refuse("shape", f"`operators` are {' '.join(OPERATORS)}")
            self.word(key, "require", ["required", "optional", "any_of"], "required")
            self.word(key, "match", ["subset", "exact"], "subset")
        if what == "get":
            if any(set(key.get("operators", ["="])) != {"="} for key in keys):
                self.refuse("shape", "the keys of `get` have the operator = alone")
            if all(key.get("require") == "optional" for key in keys):
                self.refuse("shape", "`get` needs a key that is required or any_of")

    def distinct(self, names, what):
        for at, name in enumerate(names):
            if name in names[:at]:
                self.refuse("duplicate name", f"{what} have the name {name}")

    def table_names(self, table):
        self.distinct([column["name"] for column in table["columns"]], "two columns")
        self.distinct([function["name"] for function in table.get("functions", [])], "two functions")
        for access in ["list", "get"]:
            keys = table.get(access, {}).get("keys", [])
            self.distinct([key["column"] for key in keys], f"the columns of two keys of `{access}`")

    def table_functions(self, table):
        known = [function["name"] for function in table.get("functions", [])]
        named = [column["function"] for column in table["columns"] if "function" in column]
        named += [name for function in table.get("functions", []) for name in function.get("depends", [])]
        for name in named:
            if name not in known:
                self.refuse("unknown function", f"{name} isn't among `functions`")

    def table_circles(self, table):
        left = order_of(table)[1]
        if left:
            self.refuse("cycle", f"{', '.join(left)} depend on themselves, be it by others")

    def table_keys(self, table):
        hydrated = [column["name"] for column in table["columns"] if "function" in column]
        for key in table.get("list", {}).get("keys", []):
            if key.get("match") == "subset" and key["column"] in hydrated:
                self.refuse("subset key is hydrated", f"the key {key['column']} of `list` is on a column with a function")

    def table_access(self, table):
        if "list" not in table and "get" not in table:
            self.refuse("no access", "the table has neither `list` nor `get`")


def order_of(table):
    """Functions, each after those that it depends on; and those that remain, which depend on themselves."""
    left = {function["name"]: set(function.get("depends", [])) for function in table.get("functions", [])}
    done = []
    while True:
        free = [name for name, depends in left.items() if not depends.intersection(left)]
        if not free:
            return done, list(left)
        done += free
        for name in free:
            del left[name]
