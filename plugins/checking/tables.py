"""The tables of the connections of a settings file, as they are named in SQL."""
import json
import re
import sys

from .child import Child
from .declaration import Declaration, Refused
from .report import Stop

RESERVED = set(
    "select from where join inner on order by asc desc limit and or not in is null true false as group".split()
)


def show_tables(path, seconds, report):
    """Prints the tables of each connection, one connection after another."""
    for connection in connections_of(path, report):
        name, command = connection.get("name"), connection.get("command")
        if command is None:
            print(f"{name} stands for connections: {' '.join(map(str, connection.get('connections', [])))}\n")
            continue
        print(f"{name} (plugin {connection.get('plugin')}): {' '.join(map(str, command))}\n")
        for table in tables_of(command, seconds, report):
            print_table(name, table)


def connections_of(path, report):
    if sys.version_info < (3, 11):
        report.wrong("Python", "--tables reads TOML, which needs Python 3.11 or later")
        return []
    import tomllib

    try:
        with open(path, "rb") as file:
            return tomllib.load(file).get("connection", [])
    except (OSError, ValueError) as error:
        report.wrong("settings", f"{path} can't be read: {error}")
        return []


def tables_of(command, seconds, report):
    """What the plugin declares; nothing where it has no declaration, or one that is refused."""
    try:
        child = Child(command, seconds, report)
    except (OSError, TypeError, ValueError) as error:
        report.wrong("start", f"the command can't be started: {error}")
        return []
    try:
        declared = child.ask(op="declare")
        if declared.ending == "declaration":
            Declaration(declared.value)
            return declared.value["tables"]
    except Refused as refused:
        report.wrong("declaration", f"the declaration is refused: {refused}", json.dumps(refused.part))
    except Stop:
        pass  # it was reported
    finally:
        child.stop()
    return []


def sql_name(name):
    """A name as SQL has it: quoted where it isn't a plain name in small letters, or is reserved."""
    if re.fullmatch("[a-z_][a-z0-9_]*", name) and name not in RESERVED:
        return name
    return '"' + name.replace('"', '""') + '"'


def print_table(connection, table):
    print(f"{connection}.{sql_name(table['name'])}")
    names = [sql_name(column["name"]) for column in table["columns"]]
    width = max(map(len, names))
    for name, column in zip(names, table["columns"]):
        print(f"    {name:{width}}  {column['kind']:4}{origin(column)}".rstrip())
    for access in ["list", "get"]:
        if access in table:
            print_access(access, table)
    for function in table.get("functions", []):
        after = f" after {', '.join(function['depends'])}" if function.get("depends") else ""
        print(f"  function {function['name']}{after}")
    print()


def origin(column):
    """Where a column's value comes from, if it isn't the item's field of the column's name."""
    field = f" from {column['field']}" if column.get("field", column["name"]) != column["name"] else ""
    return ("  " + field.strip() if field else "") + (f"  by {column['function']}" if "function" in column else "")


def print_access(access, table):
    under = f" under {table[access]['parent']['function']}" if "parent" in table[access] else ""
    print(f"  {access} {table[access]['function']}{under}")
    hydrated = [column["name"] for column in table["columns"] if "function" in column]
    for key in table[access].get("keys", []):
        operators = " ".join(key.get("operators", ["="]))
        words = [key.get("require", "required")]
        if access == "list":
            words.append(key.get("match", "exact" if key["column"] in hydrated else "subset"))
        print(f"    key {sql_name(key['column'])} {operators} ({', '.join(words)})")
