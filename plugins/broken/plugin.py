#!/usr/bin/env python3
"""A plugin with the fault that its argument names, for plugins/check_test; without a fault for `none`."""
import json
import sys
import time

FAULT = sys.argv[1]
COLUMNS = [
    {"name": "id", "kind": "int"},
    {"name": "name", "kind": "text"},
    {"name": "owner", "kind": "text", "function": "getOwner"},
    {"name": "As", "kind": "json", "field": "more"},
]
TABLE = {
    "name": "item",
    "columns": COLUMNS,
    "list": {"function": "listItems", "keys": [{"column": "name", "require": "optional"}]},
    "get": {"function": "getItem", "keys": [{"column": "id"}]},
    "functions": [{"name": "getOwner", "depends": ["getTags"]}, {"name": "getTags"}],
}
ITEMS = [{"id": 1, "name": "ant", "more": []}, {"id": 2, "name": "bee"}, {"id": 3, "name": None}]


def nested(depth):
    return {"of": nested(depth - 1)} if depth > 1 else {}


# What stands in the place of the first item.
FIRST_ITEMS = {
    "float": {"id": 1.5},
    "large number": {"id": 2**63},
    "another kind": {"id": "1"},
    "deep": {"id": 1, "more": nested(100)},
    "long": {"id": 1, "name": "a" * 1048576},
}


def replies(request):
    if request["op"] == "declare":
        if FAULT == "declare fails":
            return [{"error": "AccessDenied: no credentials"}]
        if FAULT == "declaration":
            TABLE["columns"][0]["kind"] = "number"
        return [{"declaration": {"tables": [TABLE]}}]
    if request["op"] == "version":
        return [{"version": 1}]
    if request.get("function") in ["listItems", "getItem"]:
        items = list(ITEMS)
        if FAULT != "condition":
            for name, _, value in request["conditions"]:
                items = [item for item in items if item[name] == value]
        if FAULT in FIRST_ITEMS:
            items = [FIRST_ITEMS[FAULT]] + items[1:]
    elif request.get("function") in ["getTags", "getOwner"]:
        items = [{"owner": "ann"}] * (2 if FAULT == "two results" else 1)
    else:
        return [{"error": "Unsupported: no such call"}]
    return [{"item": item} for item in items] + [{"end": True}]


def spelled(request, reply):
    line = {"id": request["id"], **reply}
    if FAULT == "member too many" and "end" in reply:
        line["count"] = 3
    if FAULT == "unknown id" and "end" in reply:
        print(json.dumps({"id": 99, "end": True}))
    return json.dumps(line)


def lines_in_blocks():
    """Each line once 4,096 bytes more are there, or the input has ended."""
    waiting = b""
    while piece := sys.stdin.buffer.read(4096):
        *lines, waiting = (waiting + piece).split(b"\n")
        yield from lines


if FAULT == "greeting":
    print("plugin started", flush=True)
if FAULT == "slow":
    time.sleep(11)
for text in lines_in_blocks() if FAULT == "blocks" else sys.stdin:
    try:
        asked = json.loads(text)
        asked["id"]
    except (ValueError, KeyError, TypeError):
        continue
    if FAULT == "strict" and asked["op"] == "nothing":
        sys.exit("no such request")
    for answer in replies(asked):
        print(spelled(asked, answer), flush=FAULT != "not flushed")
    if FAULT == "ends too early" and asked["op"] == "version":
        break
if FAULT == "runs on":
    time.sleep(60)
