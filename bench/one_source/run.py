"""Times the command on 100,000 items of one child, beside jq and sqlite3 on the same lines: three times each, and the median.

    bench/one_source/run [PROGRAM]

Run it by hand, after the gate has left the program; PROGRAM is another build of it. It needs jq, sqlite3 and GNU time. The child is `cat`,
which gives prepared lines, so that what is timed is the command. jq only shows the columns of each line. sqlite3 first loads the lines into a
table in memory, and that time counts. The answers of the command and of sqlite3 have to be the same in csv; of the other forms, in which the
two differ in details, the length of each answer is printed, too. At the end stands what the text of each form takes beside the rows: the peak of
memory less that of a statement that has the same rows and shows none of them.
"""
import os
import statistics
import subprocess
import sys
import tempfile

from lines import write_lines

COUNT = 100_000
PROGRAM = os.path.join(os.path.dirname(__file__), "../../crates/steampipe_main/out/steampipe_main")
SETTINGS = """[[connection]]
name = "c"
plugin = "p"
command = ["cat", "lines.jsonl", "-"]
"""
FORMS = ["table", "json", "line"]
SOME = "select name, size from {} where size > 500 and region in ('eu', 'us') order by size desc, name limit 100"
ALL = "select * from {}"
NONE = "select * from {} where size < 0"
LOAD = r"""create table line (text text);
.mode ascii
.separator "\t" "\n"
.import lines.jsonl line
create table item as
select text ->> '$.item.id' as id, text ->> '$.item.name' as name, text ->> '$.item.size' as size,
    text ->> '$.item.region' as region, text ->> '$.item.owner' as owner
from line where text -> '$.item' is not null;
.headers on
.mode csv
.separator "," "\n"
"""


def trials(program):
    """Of each trial its name, its words and its input."""
    words = [program, "query", "settings.toml", "--output"]
    command = [*words, "csv"]
    forms = []
    for form in FORMS:
        forms += [
            (f"command, {form}", [*words, form], ALL.format("c.item")),
            (f"sqlite3, {form}", ["sqlite3"], LOAD + f".mode {form}\n" + ALL.format("item") + ";"),
        ]
    show = "select(.item).item | [{}] | @csv"
    return [
        ("command, some", command, SOME.format("c.item")),
        ("jq, two columns", ["jq", "-r", show.format(".name, .size"), "lines.jsonl"], ""),
        ("sqlite3, some", ["sqlite3"], LOAD + SOME.format("item") + ";"),
        ("command, none", command, NONE.format("c.item")),
        ("command, all", command, ALL.format("c.item")),
        ("jq, all columns", ["jq", "-r", show.format(".id, .name, .size, .region, .owner"), "lines.jsonl"], ""),
        ("sqlite3, all", ["sqlite3"], LOAD + ALL.format("item") + ";"),
        *forms,
    ]


def run(name, words, text):
    """One run's seconds, its processor seconds, and its peak of memory in KiB. What it prints stays in a file of the trial's name."""
    with open(name, "w") as answer, open("notes", "w") as notes:
        timed = ["time", "-f", "%e %U %S %M", "-o", "figures", *words]
        subprocess.run(timed, input=text + "\n", text=True, stdout=answer, stderr=notes, check=True)
    with open("figures") as figures:
        seconds, user, system, kibibytes = map(float, figures.read().split())
    return seconds, user + system, kibibytes


def answer(name):
    with open(name) as file:
        return file.read()


def main():
    program = os.path.realpath(sys.argv[1] if sys.argv[1:] else PROGRAM)
    if not os.access(program, os.X_OK):
        sys.exit(f"no program at {program}: run the gate, or 'rt run' in crates/steampipe_main, first")
    with tempfile.TemporaryDirectory() as room:
        os.chdir(room)
        with open("settings.toml", "w") as settings:
            settings.write(SETTINGS)
        with open("lines.jsonl", "w") as lines:
            write_lines(COUNT, lines)
        print(f"{COUNT} items, {os.path.getsize('lines.jsonl')} bytes, {os.cpu_count()} cores, load {os.getloadavg()[0]:.1f}")
        figures = {}
        for _ in range(3):
            for name, words, text in trials(program):
                figures.setdefault(name, []).append(run(name, words, text))
        for statement in ["some", "all"]:
            if answer(f"command, {statement}") != answer(f"sqlite3, {statement}"):
                sys.exit(f"the answers differ: {statement}")
        peaks = {}
        for name, runs in figures.items():
            seconds, processor, kibibytes = map(statistics.median, zip(*runs))
            length = os.path.getsize(name) / 1_000_000
            peaks[name] = kibibytes * 1024
            print(f"{name:16} {seconds:5.2f} s, {processor:5.2f} s of processor, {kibibytes / 1024:4.0f} MiB, {length:5.1f} MB")
        for name in ["all", *FORMS]:
            beside = peaks[f"command, {name}"] - peaks["command, none"]
            times = beside / os.path.getsize(f"command, {name}")
            print(f"{name:16} {beside / 1_000_000:5.1f} MB beside the rows, {times:.1f} times the text")
        os.chdir("/")


if __name__ == "__main__":
    main()
