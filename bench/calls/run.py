"""Times the command on rows that cost two calls each, of which the second needs the first, beside a script that makes the same calls of the
same child: three times each, and the median.

    bench/calls/run [PROGRAM]

Run it by hand, after the gate has left the program; PROGRAM is another build of it. It needs GNU time. The child is child.py, in Python; how long
it works by itself counts in both, and is printed. Both have to give the same rows.
"""
import os
import statistics
import subprocess
import sys
import tempfile

HERE = os.path.dirname(os.path.realpath(__file__))
PROGRAM = os.path.join(HERE, "../../crates/steampipe_main/out/steampipe_main")
WINDOW = 256
SETTINGS = """[options]
window = {}

[[connection]]
name = "c"
plugin = "p"
command = ["python3", "{}", "{}"]
"""


def run(name, words, text):
    """One run's seconds, the processor seconds of it and its child, and the peak of memory of the larger of the two in KiB."""
    with open(name, "w") as answer, open("notes", "w") as notes:
        timed = ["time", "-f", "%e %U %S %M", "-o", "figures", *words]
        subprocess.run(timed, input=text, text=True, stdout=answer, stderr=notes, check=True)
    with open("figures") as figures:
        seconds, user, system, kibibytes = map(float, figures.read().split())
    return seconds, user + system, kibibytes


def answer(name):
    with open(name) as file:
        return file.read()


def main():
    program = os.path.realpath(sys.argv[1] if sys.argv[1:] else PROGRAM)
    if not os.access(program, os.X_OK):
        sys.exit(f"no program at {program}: run the gate, or 'rt run' in crates/steampipe_main, first")
    child = os.path.join(HERE, "child.py")
    print(f"{os.cpu_count()} cores, load {os.getloadavg()[0]:.1f}")
    with tempfile.TemporaryDirectory() as room:
        os.chdir(room)
        for count in [10_000, 100_000]:
            with open("settings.toml", "w") as settings:
                settings.write(SETTINGS.format(WINDOW, child, count))
            trials = [
                ("command", [program, "query", "settings.toml", "--output", "csv"], "select id, owner, cost from c.item\n"),
                ("script", ["python3", os.path.join(HERE, "client.py"), str(WINDOW), "python3", child, str(count)], ""),
            ]
            figures = {}
            for _ in range(3):
                for name, words, text in trials:
                    figures.setdefault(name, []).append(run(name, words, text))
            if answer("command") != answer("script"):
                sys.exit(f"the answers differ at {count} rows")
            for name, runs in figures.items():
                seconds, processor, kibibytes = map(statistics.median, zip(*runs))
                call = seconds / (2 * count) * 1_000_000
                print(f"{count:7} rows, {name:8} {seconds:5.2f} s, {processor:5.2f} s of processor with the child, {kibibytes / 1024:4.0f} MiB, {call:5.1f} microseconds a call")
        os.chdir("/")


if __name__ == "__main__":
    main()
