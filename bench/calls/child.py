"""A child with one table of so many items, and two functions of each, of which the second needs the first.

    child.py COUNT

It answers as many requests as came at once, and then writes once.
"""
import json
import os
import sys

COLUMNS = [
    {"name": "id", "kind": "int"},
    {"name": "owner", "kind": "text", "function": "getOwner"},
    {"name": "cost", "kind": "int", "function": "getCost"},
]
TABLE = {
    "name": "item",
    "columns": COLUMNS,
    "list": {"function": "listItems"},
    "functions": [{"name": "getOwner"}, {"name": "getCost", "depends": ["getOwner"]}],
}


def result(request):
    """What a function gives for an item; the cost is that of the owner whom the first function gave."""
    number = request["item"]["id"]
    if request["function"] == "getOwner":
        return f'{{"owner":"team-{number % 50}"}}'
    team = int(request["results"]["getOwner"]["owner"][5:])
    return f'{{"cost":{number * 3 + team}}}'


def reply(request, count):
    number, op = request["id"], request["op"]
    if op == "hydrate":
        return f'{{"id":{number},"item":{result(request)}}}\n{{"id":{number},"end":true}}\n'
    if op == "declare":
        return json.dumps({"id": number, "declaration": {"tables": [TABLE]}}) + "\n"
    if op == "version":
        return f'{{"id":{number},"version":1}}\n'
    items = (f'{{"id":{number},"item":{{"id":{at}}}}}\n' for at in range(count))
    return "".join(items) + f'{{"id":{number},"end":true}}\n'


def write_all(text):
    left = text.encode()
    while left:
        left = left[os.write(1, left):]


def main():
    count, rest = int(sys.argv[1]), b""
    while more := os.read(0, 65536):
        *lines, rest = (rest + more).split(b"\n")
        write_all("".join(reply(json.loads(line), count) for line in lines))


if __name__ == "__main__":
    main()
