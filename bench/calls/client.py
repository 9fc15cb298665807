"""Makes the calls of the bench by hand: a list, and for each item two calls, of which the second needs the first. It prints the rows in csv.

    client.py WINDOW COMMAND [WORD ..]

At most WINDOW items are asked for at once, as the command does; it prints each row as soon as all before it are printed.
"""
import collections
import json
import os
import subprocess
import sys


class Calls:
    """The calls of a child: what is asked and not yet sent, and which item each open call is for."""

    def __init__(self, child):
        self.child, self.number, self.asked, self.open, self.rest = child, 0, [], {}, b""

    def ask(self, seat, **request):
        self.number += 1
        self.open[self.number] = seat
        self.asked.append(json.dumps({"id": self.number, "connection": "c", **request}, separators=(",", ":")))

    def answers(self):
        """Sends what is asked, and gives the lines of the next replies that come."""
        if self.asked:
            self.child.stdin.write(("\n".join(self.asked) + "\n").encode())
            self.child.stdin.flush()
            self.asked.clear()
        *lines, self.rest = (self.rest + os.read(self.child.stdout.fileno(), 65536)).split(b"\n")
        return map(json.loads, lines)


def main():
    window, command = int(sys.argv[1]), sys.argv[2:]
    child = subprocess.Popen(command, stdin=subprocess.PIPE, stdout=subprocess.PIPE)
    calls, items, rows, out = Calls(child), [], collections.deque(), ["id,owner,cost"]
    calls.ask(None, op="list", table="item", function="listItems", version=1, attempt=1, parent=None, conditions=[])
    ended, begun = False, 0
    while not ended or begun < len(items) or rows:
        while begun < len(items) and len(rows) < window:
            row = [items[begun], None, None]
            rows.append(row)
            begun += 1
            calls.ask((row, 1), op="hydrate", table="item", function="getOwner", version=1, attempt=1, item=row[0], results={})
        for line in calls.answers():
            seat = calls.open[line["id"]]
            if "end" in line:
                del calls.open[line["id"]]
                ended = ended or seat is None
            elif seat is None:
                items.append(line["item"])
            else:
                row, step = seat
                row[step] = line["item"]
                if step == 1:
                    calls.ask((row, 2), op="hydrate", table="item", function="getCost", version=1, attempt=1, item=row[0], results={"getOwner": row[1]})
        while rows and rows[0][2]:
            item, owner, cost = rows.popleft()
            out.append(f'{item["id"]},{owner["owner"]},{cost["cost"]}')
    child.stdin.close()
    child.wait()
    print("\n".join(out))


if __name__ == "__main__":
    main()
