"""A running plugin, and what comes for each request."""
import json
import os
import queue
import signal
import subprocess
import threading
import time

from .lines import is_integer, json_of, reply_fault
from .report import Report, Stop

LONGEST_LINE = 1048576
MOST_ITEMS = 999999


class Call:
    """A request and what has come for it."""

    def __init__(self, number, members):
        self.number = number
        self.members = members
        self.items = []
        self.lines = []  # of the items, and of the ending
        self.ending = None  # the name of the last line's member
        self.value = None  # and its value

    def request(self):
        members = {"id": self.number, **self.members}
        return json.dumps(members, sort_keys=True, separators=(",", ":"), ensure_ascii=False)

    def name(self):
        members = self.members
        if members["op"] == "version" or members["op"] == "declare" or "table" not in members:
            return f"the request {members['op']}"
        conditions = "".join(f" where {a} {b} {json.dumps(c)}" for a, b, c in members.get("conditions", []))
        return f"{members['op']} of {members['table']} by {members['function']}{conditions}"

    def takes(self, kind):
        wanted = {"declare": ["declaration"], "version": ["version", "error"]}
        return kind in wanted.get(self.members["op"], ["item", "end", "error"])


class Child:
    """A running plugin, spoken to by requests; lines that fit no call are reported as they come."""

    def __init__(self, command, seconds, report, log=None):
        self.command = command
        self.seconds = seconds
        self.report = report
        self.calls = {}
        self.events = queue.Queue()
        self.input = queue.Queue()
        self.has_ended = False
        self.process = subprocess.Popen(
            command, stdin=subprocess.PIPE, stdout=subprocess.PIPE, stderr=log, start_new_session=True
        )
        threading.Thread(target=self.read, daemon=True).start()
        threading.Thread(target=self.write, daemon=True).start()

    # In a thread of its own, since a plugin that writes much may read nothing meanwhile; None ends the input.
    def write(self):
        try:
            while (data := self.input.get()) is not None:
                self.process.stdin.write(data)
                self.process.stdin.flush()
            self.process.stdin.close()
        except BrokenPipeError:
            pass  # the end of its output tells it

    # In a thread of its own: the lines of the output as ("line", bytes), then ("end", bytes without a line feed).
    def read(self):
        pending, too_long = b"", False
        while True:
            piece = os.read(self.process.stdout.fileno(), 65536)
            *lines, pending = (pending + piece).split(b"\n")
            for line in lines:
                if not too_long:
                    self.events.put(("long" if len(line) > LONGEST_LINE else "line", line[: LONGEST_LINE + 1]))
                too_long = False
            if len(pending) > LONGEST_LINE:
                if not too_long:
                    self.events.put(("long", pending))
                pending, too_long = b"", True
            if not piece:
                self.events.put(("end", pending))
                return

    def call(self, **members):
        made = Call(len(self.calls) + 1, {"connection": "check", **members})
        self.calls[made.number] = made
        return made

    def send(self, *calls):
        self.input.put("".join(call.request() + "\n" for call in calls).encode("utf-8"))

    def ask(self, **members):
        """One call with its whole reply."""
        made = self.call(**members)
        self.send(made)
        self.wait_for([made])
        return made

    def wait_for(self, calls):
        """Until each has its ending; Stop where that can't be."""
        waits = [call for call in calls if call.ending is None]
        while waits:
            if not self.take(self.seconds):
                self.was_silent(waits[0])
            waits = [call for call in waits if call.ending is None]
            if waits and self.has_ended:
                words = f"the plugin ended before it had answered {waits[0].name()}, with status {self.status()}"
                self.report.wrong("ended too early", words, waits[0].request())
                raise Stop

    def was_silent(self, call):
        self.input.put(None)
        while self.take(self.seconds):
            pass
        if call.ending is None:
            self.report.wrong("no answer", f"no answer to {call.name()} within {self.seconds} seconds", call.request())
        else:
            words = f"the answer to {call.name()} came only {why_late(self.command, call, self.seconds)}"
            self.report.wrong("late", words, call.lines[-1])
        raise Stop

    def take(self, seconds):
        """Whether something came within that time."""
        if self.has_ended:
            return False
        try:
            event, line = self.events.get(timeout=seconds)
        except queue.Empty:
            return False
        if event == "long":
            self.report.wrong("long line", f"a line of more than {LONGEST_LINE} bytes", line)
        elif event == "line":
            self.heard(line)
        else:
            self.has_ended = True
            if line:
                self.report.wrong("unfinished line", "the output ends without a line feed", line)
        return True

    def heard(self, line):
        try:
            value = json_of(line)
        except ValueError as error:
            words = f"a line on the standard output that is no JSON ({error}); write logs to a file"
            self.report.wrong("no JSON", words, line)
            return
        fault = reply_fault(value)
        if fault is not None:
            self.report.wrong(fault[0], fault[1], line)
            self.ends_badly(value)
            return
        call = self.calls.get(value["id"])
        kind = [name for name in value if name != "id"][0]
        if call is None:
            self.report.wrong("unknown id", f"a line of id {value['id']}, which nobody asked", line)
        elif call.ending is not None:
            self.report.wrong("after the end", f"a line of id {value['id']} after the end of that reply", line)
        elif not call.takes(kind):
            hint = "; let the first call fail in its place" if call.members["op"] == "declare" else ""
            self.report.wrong("another kind", f"{call.name()} isn't answered by `{kind}`{hint}", line)
            call.ending = "wrong"
        elif kind == "item":
            call.items.append(value["item"])
            call.lines.append(line)
            if len(call.items) > MOST_ITEMS:
                self.report.wrong("too many items", f"{call.name()} gave more than {MOST_ITEMS} items", line)
                raise Stop
        else:
            call.ending, call.value = kind, value[kind]
            call.lines.append(line)

    def ends_badly(self, value):
        """A line of another form that was to end a reply ends it here, so that the rest can be tried."""
        call = self.calls.get(value.get("id")) if isinstance(value, dict) and is_integer(value.get("id")) else None
        if call is not None and "item" not in value:
            call.ending = "wrong"

    def status(self):
        try:
            return self.process.wait(self.seconds)
        except subprocess.TimeoutExpired:
            return "unknown"

    def ends_with_its_input(self):
        """Ends the input, and waits for the plugin to end; Stop where it doesn't."""
        self.input.put(None)
        until = time.monotonic() + self.seconds
        while time.monotonic() < until and self.take(max(0.0, until - time.monotonic())):
            pass
        try:
            self.process.wait(max(0.1, until - time.monotonic()))
        except subprocess.TimeoutExpired:
            words = f"{self.seconds} seconds after the end of its input the plugin still runs; steampipe waits half a second"
            self.report.wrong("runs on", words)
            raise Stop from None

    def stop(self):
        try:
            os.killpg(self.process.pid, signal.SIGKILL)
        except ProcessLookupError:
            pass
        self.process.wait()


def why_late(command, late, seconds):
    """Why the answer to a call came only after the input had ended, found by another start of the plugin."""
    report = Report()
    report.is_silent = True
    child = Child(command, seconds, report, subprocess.DEVNULL)
    try:
        begun = time.monotonic()
        if is_answered(child, [child.call(**late.members)], 2 * seconds):
            return f"after {time.monotonic() - begun:.1f} seconds; `--seconds N` gives it more time"
        # Few answers to much input fill no buffer of the output: where one comes, the input waits in one.
        much = [child.call(op="version", tick=0, connection="c" * 65536) for _ in range(5)]
        if late.number == 1 and is_answered(child, much, seconds):
            return "after the input had ended: the plugin reads it in blocks, not line by line (mawk: use mawk -W interactive)"
        return "after the input had ended: flush the output after each line"
    finally:
        child.stop()


def is_answered(child, calls, seconds):
    """Whether something comes for one of them within that time."""
    child.send(*calls)
    child.take(seconds)
    return any(call.lines for call in child.calls.values())
