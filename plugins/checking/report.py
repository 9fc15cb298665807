"""What was found of a plugin."""

# After so many of one kind the plugin isn't asked any more.
MOST_OF_A_KIND = 10000


class Report:
    """What was found, each kind at most three times."""

    def __init__(self):
        self.counts = {}
        self.is_wrong = False
        self.is_silent = False

    def wrong(self, kind, words, line=None):
        self.is_wrong = True
        self.say("wrong", kind, words, line)

    def note(self, kind, words, line=None):
        self.say("note", kind, words, line)

    def say(self, level, kind, words, line):
        self.counts[kind] = self.counts.get(kind, 0) + 1
        if self.counts[kind] <= 3 and not self.is_silent:
            print(f"{level}: {words}" + ("" if line is None else f"\n    {shown(line)}"))
        if self.counts[kind] == MOST_OF_A_KIND:
            raise Stop

    def finish(self):
        for kind, count in self.counts.items():
            if count > 3:
                print(f"and {count - 3} more of this kind: {kind}")
        print("something is wrong" if self.is_wrong else "nothing is wrong")


def shown(line):
    text = line.decode("utf-8", "replace") if isinstance(line, bytes) else line
    return text if len(text) <= 200 else text[:200] + " .."


class Stop(Exception):
    """The child can't be asked any more."""
