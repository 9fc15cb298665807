"""Tries a plugin and says in plain words what is wrong with it; or prints the tables of a settings file's connections.

    plugins/check [--seconds N] COMMAND ARGUMENT ..
    plugins/check [--seconds N] --tables SETTINGS

It starts the command, asks for the declaration, a version, every table's list, some gets and some
functions, several at once, sends it requests that it can't know and lines that are none, and ends its
input. `wrong:` is what steampipe doesn't take, `note:` what it does. An answer has to come within N
seconds, 5 if not given. The exit status is 0 where nothing is wrong, 1 where something is, and 2 for wrong words.
"""
import os
import subprocess
import sys

from checking.child import Child
from checking.conversation import Conversation
from checking.odd import try_bad_lines, try_unknown_kind, try_unknown_table
from checking.report import Report, Stop
from checking.tables import show_tables

USAGE = "usage: plugins/check [--seconds N] COMMAND ARGUMENT .., or plugins/check [--seconds N] --tables SETTINGS"


def try_with(command, seconds, report, work, log=None):
    """Starts the plugin, lets it be asked, and ends its input; whether it could be asked to the end."""
    child = Child(command, seconds, report, log)
    try:
        work(child, report)
        child.ends_with_its_input()
        return True
    except Stop:
        return False
    finally:
        child.stop()


def converse(child, report):
    Conversation(child, report).run()


def ask_nothing(_child, _report):
    """The input ends at once."""


def try_plugin(command, seconds, report):
    try:
        if try_with(command, seconds, report, converse):
            try_with(command, seconds, report, ask_nothing)
            for odd in [try_unknown_kind, try_unknown_table, try_bad_lines]:
                try_with(command, seconds, report, odd, subprocess.DEVNULL)
    except OSError as error:
        report.wrong("start", f"the command can't be started: {error}")


def words_of(arguments):
    """The seconds, the settings file and the command, of which one is None; None for wrong words."""
    seconds = 5
    if arguments[:1] == ["--seconds"] and len(arguments) > 1 and arguments[1].isdecimal():
        seconds, arguments = int(arguments[1]), arguments[2:]
    if seconds == 0:
        return None
    if arguments[:1] == ["--tables"] and len(arguments) == 2:
        return seconds, arguments[1], None
    if not arguments or arguments[0].startswith("-"):
        return None
    return seconds, None, arguments


def main():
    words = words_of(sys.argv[1:])
    if words is None:
        print(USAGE, file=sys.stderr)
        return 2
    seconds, settings, command = words
    report = Report()
    if settings is None:
        try_plugin(command, seconds, report)
        report.finish()
    else:
        show_tables(settings, seconds, report)
    return 1 if report.is_wrong else 0


if __name__ == "__main__":
    try:
        sys.exit(main())
    except BrokenPipeError:
        os._exit(1)  # nobody reads what is said any more
